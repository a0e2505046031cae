//! The words that were typed, and what they ask for.

use std::ffi::{OsStr, OsString};
use std::path::{Path, PathBuf};

/// Where the ticks text comes from.
#[derive(Debug, PartialEq, Eq)]
pub enum Reports {
    /// `reports.csv` of the unit's folder.
    OfFolder,
    File(PathBuf),
    StandardInput,
}

/// What is asked of the proved programs.
#[derive(Debug, PartialEq, Eq)]
pub enum Question {
    Admit,
    Explain,
    Ticks { reports: Reports, every_row: bool },
    Rehearse { chart: Option<PathBuf> },
}

#[derive(Debug, PartialEq, Eq)]
pub enum Request {
    Help,
    Version,
    Ask { question: Question, folder: PathBuf, quiet: bool },
    Tidy { folder: PathBuf, into: Option<PathBuf>, quiet: bool },
}

#[derive(Default)]
struct Options {
    quiet: bool,
    every_row: bool,
    chart: Option<PathBuf>,
    help: bool,
    version: bool,
}

/// The request, or what is wrong with the words.
pub fn request(words: impl IntoIterator<Item = OsString>) -> Result<Request, String> {
    let (options, named) = sorted(words)?;
    if options.help {
        return Ok(Request::Help);
    }
    if options.version {
        return Ok(Request::Version);
    }
    let mut named = named.into_iter();
    let name = named.next().ok_or("no command is given")?;
    named_request(&name, named.collect(), options)
}

/// Options apart from the other words; behind `--` no word is an option.
fn sorted(words: impl IntoIterator<Item = OsString>) -> Result<(Options, Vec<OsString>), String> {
    let mut options = Options::default();
    let mut named = Vec::new();
    let mut open = true;
    let mut words = words.into_iter();
    while let Some(word) = words.next() {
        match word.to_str() {
            Some("--") if open => open = false,
            Some("--quiet" | "-q") if open => options.quiet = true,
            Some("--words") if open => options.every_row = true,
            Some("--chart") if open && options.chart.is_some() => return Err("--chart is given twice".into()),
            Some("--chart") if open => options.chart = Some(picture(words.next())?),
            Some("--help" | "-h") if open => options.help = true,
            Some("--version" | "-V") if open => options.version = true,
            _ if open && word.as_encoded_bytes().starts_with(b"-") && word != "-" => return Err(unknown(&word)),
            _ => named.push(word),
        }
    }
    Ok((options, named))
}

/// A picture replaces the file of its name: the ending keeps it off a unit's own texts.
fn picture(word: Option<OsString>) -> Result<PathBuf, String> {
    let path = PathBuf::from(word.unwrap_or_default());
    let is_option = path.as_os_str().as_encoded_bytes().starts_with(b"-");
    match path.extension().is_some_and(|ending| ending.eq_ignore_ascii_case("svg")) && !is_option {
        true => Ok(path),
        false => Err("behind --chart stands a file whose name ends in .svg".into()),
    }
}

fn named_request(name: &OsStr, rest: Vec<OsString>, options: Options) -> Result<Request, String> {
    let most = match name.to_str() {
        Some("admit" | "explain" | "rehearse") => 1,
        Some("ticks" | "tidy") => 2,
        _ => return Err(unknown(name)),
    };
    if let Some(word) = rest.get(most) {
        return Err(format!("a word too many: {word:?}"));
    }
    if options.every_row && name != "ticks" {
        return Err("--words belongs to ticks".into());
    }
    if options.chart.is_some() && name != "rehearse" {
        return Err("--chart belongs to rehearse".into());
    }
    let quiet = options.quiet;
    let mut rest = rest.into_iter().map(PathBuf::from);
    let (first, second) = (rest.next(), rest.next());
    if name == "tidy" {
        let folder = first.ok_or("tidy needs the unit's folder")?;
        return Ok(Request::Tidy { folder, into: second, quiet });
    }
    let (folder, question) = match name.to_str() {
        Some("admit") => (first, Question::Admit),
        Some("explain") => (first, Question::Explain),
        Some("rehearse") => (first, Question::Rehearse { chart: options.chart }),
        _ => ticks(first, second, options.every_row),
    };
    Ok(Request::Ask { question, folder: folder.unwrap_or_else(|| ".".into()), quiet })
}

/// A lone `-` is standard input for the unit in the working folder, since no folder is called so without `./`.
fn ticks(first: Option<PathBuf>, second: Option<PathBuf>, every_row: bool) -> (Option<PathBuf>, Question) {
    let dash = Path::new("-");
    let (folder, reports) = match (first, second) {
        (Some(word), None) if word == dash => (None, Some(word)),
        both => both,
    };
    let reports = match reports {
        None => Reports::OfFolder,
        Some(path) if path == dash => Reports::StandardInput,
        Some(path) => Reports::File(path),
    };
    (folder, Question::Ticks { reports, every_row })
}

fn unknown(word: &OsStr) -> String {
    format!("an unknown word: {word:?}")
}

#[cfg(test)]
mod tests {
    use super::*;
    use std::os::unix::ffi::OsStringExt;

    fn typed(line: &str) -> Result<Request, String> {
        request(line.split_whitespace().map(OsString::from))
    }

    fn asked(line: &str) -> (Question, PathBuf, bool) {
        match typed(line) {
            Ok(Request::Ask { question, folder, quiet }) => (question, folder, quiet),
            other => panic!("{line}: {other:?}"),
        }
    }

    #[test]
    fn folders_and_their_defaults() {
        assert_eq!(asked("admit"), (Question::Admit, ".".into(), false));
        assert_eq!(asked("admit unit --quiet"), (Question::Admit, "unit".into(), true));
        assert_eq!(asked("-q explain -- -unit"), (Question::Explain, "-unit".into(), true));
        let tidy = |folder: &str, into: Option<&str>, quiet| {
            Ok(Request::Tidy { folder: folder.into(), into: into.map(PathBuf::from), quiet })
        };
        assert_eq!(typed("tidy a b"), tidy("a", Some("b"), false));
        assert_eq!(typed("tidy --quiet a"), tidy("a", None, true));
    }

    #[test]
    fn where_ticks_come_from() {
        let file = Reports::File("log.csv".into());
        for (line, folder, reports, every_row) in [
            ("ticks", ".", Reports::OfFolder, false),
            ("ticks unit --words", "unit", Reports::OfFolder, true),
            ("ticks --words unit -", "unit", Reports::StandardInput, true),
            ("ticks -", ".", Reports::StandardInput, false),
            ("ticks unit log.csv", "unit", file, false),
        ] {
            assert_eq!(asked(line), (Question::Ticks { reports, every_row }, folder.into(), false), "{line}");
        }
    }

    #[test]
    fn a_rehearsal_and_its_chart() {
        let rehearse = |chart: Option<&str>| Question::Rehearse { chart: chart.map(PathBuf::from) };
        for (line, folder, chart) in [
            ("rehearse", ".", None),
            ("rehearse unit", "unit", None),
            ("rehearse unit --chart a.svg", "unit", Some("a.svg")),
            ("--chart charts/A.SVG rehearse", ".", Some("charts/A.SVG")),
            ("rehearse --chart ./-a.svg -- -unit", "-unit", Some("./-a.svg")),
        ] {
            assert_eq!(asked(line), (rehearse(chart), folder.into(), false), "{line}");
        }
        for line in [
            "rehearse a b",
            "rehearse --chart",
            "rehearse --chart unit",
            "rehearse --chart tasks.csv",
            "rehearse --chart .svg",
            "rehearse --chart -a.svg",
            "rehearse --chart a.svg --chart b.svg",
            "rehearse --words",
            "admit --chart a.svg",
        ] {
            assert!(typed(line).is_err(), "{line}");
        }
    }

    #[test]
    fn help_and_version_anywhere() {
        for line in ["--help", "admit --help", "ticks a b --help", "-h", "--help --quiet nonsense"] {
            assert_eq!(typed(line), Ok(Request::Help), "{line}");
        }
        for line in ["--version", "tidy --version", "-V"] {
            assert_eq!(typed(line), Ok(Request::Version), "{line}");
        }
    }

    #[test]
    fn unknown_words() {
        for line in
            ["", "judge", "admit a b", "ticks a b c", "tidy", "tidy a b c", "--loud", "admit -x", "admit --words"]
        {
            assert!(typed(line).is_err(), "{line}");
        }
        assert!(request([OsString::from_vec(vec![b'-', 0xFF])]).is_err());
        assert!(request([OsString::from_vec(vec![0xFF])]).is_err());
        let odd = OsString::from_vec(vec![b'u', 0xFF, b'\n']);
        let wanted = Request::Ask { question: Question::Admit, folder: PathBuf::from(&odd), quiet: false };
        assert_eq!(request(["admit".into(), odd]), Ok(wanted));
    }
}
