//! Texts for a person: plain lines, of at most 100 characters where the unit's own names leave room.

pub mod margins;
pub mod refusal;
pub mod rehearsal;
pub mod ticks;

use crate::run::Trouble;
use std::io::{self, Write};
use std::os::unix::ffi::OsStrExt;
use std::path::Path;

pub const VERSION: &str = concat!("gorsetumble ", env!("CARGO_PKG_VERSION"), "\n");

pub const USAGE: &str = "\
gorsetumble: judges a unit's folder by the proved programs, and says in words what they answer

  gorsetumble admit [FOLDER]            each task's margin, and whether the unit is admitted
  gorsetumble explain [FOLDER]          what each task takes of each task's limit
  gorsetumble rehearse [FOLDER]         runs the table in one pattern of releases: is a job late?
                                        --chart FILE.svg draws it, a lane for each task
  gorsetumble ticks [--words] [FOLDER] [REPORTS]
                                        runs a text of ticks: a file, - for standard input, or the
                                        folder's reports.csv; --words shows every row in words
  gorsetumble tidy FOLDER [INTO]        writes tidied copies of the unit's texts to another folder

  --quiet (-q)     no words, only the program's listing and the exit status
  --help (-h)      this text
  --version (-V)   the command's version

FOLDER is the working folder where none is given; words behind -- are never options. The program's
listing goes to standard output as it is, words for a person to standard error.

Exit status: 0 admitted (ticks: every tick taken and none late; rehearse: no job late); 1 not
admitted (ticks: a tick refused or a job late; rehearse: a job late); 2 the texts or the table
refused; 3 could not run, or could not write.
";

pub const CHANGED: &str = "the folder changed meanwhile: run it again\n";

/// To standard error. Words that cannot be written are no failure.
pub fn say(words: &str) {
    let mut out = io::stderr().lock();
    let _ = out.write_all(words.as_bytes()).and_then(|()| out.flush());
}

pub fn wrong_words(wrong: &str) -> String {
    format!("gorsetumble: {wrong}\n\n{USAGE}")
}

/// Why there is no answer.
pub fn trouble(trouble: &Trouble) -> String {
    format!("gorsetumble: {}\n", why(trouble))
}

/// In the place of words that could not be made; the answer itself stands.
pub fn no_words(trouble: &Trouble) -> String {
    format!("no words for it: {}\n", why(trouble))
}

fn why(trouble: &Trouble) -> String {
    match trouble {
        Trouble::NoRepository => {
            "the repository is not found: this program belongs below the folder that has tools/run".into()
        }
        Trouble::NotBuilt(program) => {
            format!("the program {} is not built yet; ./sample in the repository builds it", program.name())
        }
        Trouble::NoFolder(path, error) => format!("the folder {} cannot be entered: {error}", shown(path)),
        Trouble::NotAFolder(path) => format!("{} is a file; a unit is a folder", shown(path)),
        Trouble::NotAFile(path) => format!("{} is a pipe or a device; a unit has files", shown(path)),
        Trouble::NotStarted(program, error) => format!("the program {} could not be run: {error}", program.name()),
        Trouble::NoCopies(error) => format!("copies of the unit's texts could not be written: {error}"),
        Trouble::Failed { program, ended, said } => {
            format!("the program {} ended with {ended}\n{}", program.name(), printable(said).trim_end())
        }
        Trouble::NoListing(program) => format!("what the program {} wrote is no listing of it", program.name()),
        Trouble::NoStandardOutput(error) => format!("standard output cannot be written: {error}"),
        Trouble::NoChart(why) => format!("no chart is drawn: {why}"),
        Trouble::Changed => CHANGED.trim_end().into(),
    }
}

fn printable(text: &str) -> String {
    text.chars().map(|c| if c.is_control() && c != '\n' { '?' } else { c }).collect()
}

/// A path as a person types it in a shell, so that a name with blanks or odd bytes stays one word on one line.
pub fn shown(path: &Path) -> String {
    let bytes = path.as_os_str().as_bytes();
    let plain = |byte: &u8| byte.is_ascii_alphanumeric() || b"/._-+,:@%=".contains(byte);
    let safe = match bytes {
        [b'-', ..] => [b"./", bytes].concat(),
        _ => bytes.to_vec(),
    };
    match std::str::from_utf8(&safe) {
        Ok(name) if !name.is_empty() && safe.iter().all(plain) => name.into(),
        Ok(name) if !name.chars().any(char::is_control) => format!("'{}'", name.replace('\'', r"'\''")),
        _ => {
            let escaped: String = safe.iter().map(|&byte| escaped(byte)).collect();
            format!("$'{escaped}'")
        }
    }
}

fn escaped(byte: u8) -> String {
    match byte {
        b'\'' | b'\\' => format!("\\{}", char::from(byte)),
        0x20..=0x7E => char::from(byte).into(),
        _ => format!("\\x{byte:02X}"),
    }
}

/// "1", "1 and 2", "1, 2 and 4".
pub fn listed(numbers: &[usize]) -> String {
    let words: Vec<String> = numbers.iter().map(usize::to_string).collect();
    match words.split_last() {
        None => String::new(),
        Some((last, [])) => last.clone(),
        Some((last, rest)) => format!("{} and {last}", rest.join(", ")),
    }
}

/// "task 4", "tasks 1 and 2".
pub fn tasks(numbers: &[usize]) -> String {
    match numbers {
        [_] => format!("task {}", listed(numbers)),
        _ => format!("tasks {}", listed(numbers)),
    }
}

/// "72", "1,000,000".
pub fn grouped(number: u32) -> String {
    match number {
        0..=999 => number.to_string(),
        _ => format!("{},{:03}", grouped(number / 1000), number % 1000),
    }
}

/// "1 row", "2 rows", "no row".
pub fn counted(count: usize, one: &str) -> String {
    match count {
        0 => format!("no {one}"),
        1 => format!("1 {one}"),
        _ => format!("{count} {one}s"),
    }
}

#[cfg(test)]
mod tests {
    use super::*;
    use std::ffi::OsStr;

    #[test]
    fn paths_as_they_are_typed() {
        let of = |bytes: &[u8]| shown(Path::new(OsStr::from_bytes(bytes)));
        assert_eq!(of(b"units/p1"), "units/p1");
        assert_eq!(of(b"-unit"), "./-unit");
        assert_eq!(of(b"my unit"), "'my unit'");
        assert_eq!(of(b"it's"), r"'it'\''s'");
        assert_eq!(of("Größe".as_bytes()), "'Größe'");
        assert_eq!(of(b"a\nb"), r"$'a\x0Ab'");
        assert_eq!(of(b"a\xFF'\\\x1B["), r"$'a\xFF\'\\\x1B['");
        assert_eq!(of(b""), "''");
    }

    #[test]
    fn numbers_in_a_row() {
        assert_eq!(tasks(&[4]), "task 4");
        assert_eq!(tasks(&[1, 2]), "tasks 1 and 2");
        assert_eq!(tasks(&[1, 2, 4]), "tasks 1, 2 and 4");
        assert_eq!(counted(0, "row"), "no row");
        assert_eq!(counted(1, "row"), "1 row");
        assert_eq!(counted(2, "row"), "2 rows");
        assert_eq!([0, 999, 1000, 12_034, 1_000_000].map(grouped), ["0", "999", "1,000", "12,034", "1,000,000"]);
    }

    #[test]
    fn no_line_of_the_usage_is_too_long() {
        assert!(USAGE.lines().all(|line| line.chars().count() <= 100));
    }
}
