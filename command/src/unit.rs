//! A unit's files as they were read for words, and the questions that a proved program answers about copies of them.

use crate::listing::{self, Listing, Refused};
use crate::place::{Form, PLATFORM, REPORTS, TASKS};
use crate::run::{Program, Programs, Scratch, Trouble};
use std::fs::{self, File};
use std::io::{self, Read};
use std::os::unix::fs::FileTypeExt;
use std::path::Path;

/// A program takes no text that is longer.
pub const LONGEST: usize = 60_000;

/// A file as far as a program looks at it: one byte more than the longest text says that it is longer.
#[derive(Debug, Clone, PartialEq, Eq)]
pub enum Text {
    Missing,
    Unreadable(String),
    Bytes(Vec<u8>),
}

impl Text {
    pub fn of_file(path: &Path) -> Text {
        match File::open(path).and_then(Text::bytes) {
            Ok(bytes) => Text::Bytes(bytes),
            Err(error) if error.kind() == io::ErrorKind::NotFound => Text::Missing,
            Err(error) => Text::Unreadable(error.to_string()),
        }
    }

    pub fn of_standard_input() -> Text {
        Text::bytes(io::stdin().lock()).map_or_else(|error| Text::Unreadable(error.to_string()), Text::Bytes)
    }

    fn bytes(from: impl Read) -> io::Result<Vec<u8>> {
        let mut bytes = Vec::new();
        from.take(LONGEST as u64 + 1).read_to_end(&mut bytes)?;
        Ok(bytes)
    }

    /// What a program is given for it: nothing where nothing can be read.
    pub fn given(&self) -> &[u8] {
        match self {
            Text::Bytes(bytes) => bytes,
            Text::Missing | Text::Unreadable(_) => &[],
        }
    }
}

/// The platform's and the tasks' text of one moment, and the ticks text that a program was given.
pub struct Unit {
    pub platform: Text,
    pub tasks: Text,
    pub reports: Text,
}

const GOOD_PLATFORM: &[u8] = b"cores,partitions\r\n1,1\r\n";
const GOOD_TASKS: &[u8] = b"D,T,C,A\r\n1,1,1,0\r\n";
const GOOD_REPORTS: &[u8] = b"released,finished\r\n";

impl Unit {
    pub fn of_folder(folder: &Path, reports: Text) -> Unit {
        let text = |form: &Form| Text::of_file(&folder.join(form.file));
        Unit { platform: text(&PLATFORM), tasks: text(&TASKS), reports }
    }

    pub fn text(&self, form: &Form) -> &Text {
        match form.file {
            file if file == PLATFORM.file => &self.platform,
            file if file == TASKS.file => &self.tasks,
            _ => &self.reports,
        }
    }

    /// What a program writes in a folder with copies of these texts.
    pub fn answer(&self, programs: &Programs, program: Program) -> Result<Vec<u8>, Trouble> {
        let scratch = Scratch::new().map_err(Trouble::NoCopies)?;
        for form in [&PLATFORM, &TASKS] {
            if let Text::Bytes(bytes) = self.text(form) {
                scratch.put(form.file, bytes).map_err(Trouble::NoCopies)?;
            }
        }
        programs.run(program, &scratch.path, self.reports.given())
    }

    /// The text that a refusal 15 is about: the first one, in the programs' order, that is refused when the others are
    /// good. That it is not good is the proved program's answer, never this command's. `None`: its place is another
    /// one, or no text is refused, so that these are not the texts of the answer.
    pub fn refused_text(
        &self,
        programs: &Programs,
        program: Program,
        refused: Refused,
    ) -> Result<Option<&'static Form>, Trouble> {
        let forms: &[&'static Form] = match program {
            Program::Ticks => &[&PLATFORM, &TASKS, &REPORTS],
            Program::Admit | Program::Explain | Program::Rehearse => &[&PLATFORM, &TASKS],
        };
        for &form in forms {
            let bytes = self.alone(form).answer(programs, program)?;
            match refusal(program, &bytes) {
                Some(alone) if alone == refused => return Ok(Some(form)),
                Some(alone) if alone.number == refused.number => return Ok(None),
                _ => {}
            }
        }
        Ok(None)
    }

    /// One of the texts beside good ones.
    fn alone(&self, form: &Form) -> Unit {
        let or_good = |own: &Form, good: &[u8]| match own.file == form.file {
            true => self.text(own).clone(),
            false => Text::Bytes(good.to_vec()),
        };
        Unit {
            platform: or_good(&PLATFORM, GOOD_PLATFORM),
            tasks: or_good(&TASKS, GOOD_TASKS),
            reports: or_good(&REPORTS, GOOD_REPORTS),
        }
    }
}

fn refusal(program: Program, bytes: &[u8]) -> Option<Refused> {
    let refused = match program {
        Program::Admit => listing::margins(bytes).map(refusal_of),
        Program::Ticks => listing::ticks(bytes).map(refusal_of),
        Program::Explain => listing::shares(bytes).map(refusal_of),
        Program::Rehearse => listing::rehearsal(bytes).map(refusal_of),
    };
    refused.flatten()
}

fn refusal_of<Row>(listing: Listing<Row>) -> Option<Refused> {
    match listing {
        Listing::Refused(refused) => Some(refused),
        Listing::Rows(_) => None,
    }
}

/// Held before a program runs: a pipe or a device could make it wait without end, and is not the same at a second look.
pub fn ordinary(folder: &Path, files: &[&str]) -> Result<(), Trouble> {
    let kind = fs::metadata(folder).map_err(|error| Trouble::NoFolder(folder.to_path_buf(), error))?;
    if !kind.is_dir() {
        return Err(Trouble::NotAFolder(folder.to_path_buf()));
    }
    for file in files {
        let path = folder.join(file);
        let kind = fs::metadata(&path).map(|found| found.file_type());
        if kind.is_ok_and(|k| k.is_fifo() || k.is_socket() || k.is_char_device() || k.is_block_device()) {
            return Err(Trouble::NotAFile(path));
        }
    }
    Ok(())
}

#[cfg(test)]
mod tests {
    use super::*;
    use std::process::Command;

    #[test]
    fn a_pipe_is_seen_before_a_program_waits_for_it() {
        let scratch = Scratch::new().unwrap();
        let files = ["platform.csv", "tasks.csv"];
        assert!(ordinary(&scratch.path, &files).is_ok(), "what is not there is the program's to say");
        scratch.put("platform.csv", b"").unwrap();
        fs::create_dir(scratch.path.join("tasks.csv")).unwrap();
        assert!(ordinary(&scratch.path, &files).is_ok(), "and so is a folder");
        fs::remove_dir(scratch.path.join("tasks.csv")).unwrap();
        assert!(Command::new("mkfifo").arg(scratch.path.join("tasks.csv")).status().unwrap().success());
        assert!(matches!(ordinary(&scratch.path, &files), Err(Trouble::NotAFile(_))));
        let file = scratch.path.join("platform.csv");
        assert!(matches!(ordinary(&file, &files), Err(Trouble::NotAFolder(_))));
        assert!(matches!(ordinary(&scratch.path.join("nowhere"), &files), Err(Trouble::NoFolder(..))));
    }

    #[test]
    fn texts_as_far_as_a_program_looks() {
        let scratch = Scratch::new().unwrap();
        let text = |name: &str| Text::of_file(&scratch.path.join(name));
        scratch.put("longest", &vec![b'x'; LONGEST]).unwrap();
        scratch.put("longer", &vec![b'x'; LONGEST + 2]).unwrap();
        assert_eq!(text("longest").given().len(), LONGEST);
        assert_eq!(text("longer").given().len(), LONGEST + 1);
        assert_eq!(text("nowhere"), Text::Missing);
        assert!(matches!(Text::of_file(&scratch.path), Text::Unreadable(_)));
        let path = scratch.path.clone();
        drop(scratch);
        assert!(!path.exists(), "a scratch folder goes with all that is in it");
    }
}
