//! Runs the proved programs through tools/run: in the unit's folder for the answer, in folders of copies for its words.

use std::fs;
use std::io::{self, Write};
use std::os::unix::fs::DirBuilderExt;
use std::os::unix::process::ExitStatusExt;
use std::path::{Path, PathBuf};
use std::process::{Child, Command, ExitStatus, Stdio};
use std::time::{SystemTime, UNIX_EPOCH};

#[derive(Debug, Clone, Copy, PartialEq, Eq)]
pub enum Program {
    Admit,
    Ticks,
    Explain,
    Rehearse,
}

impl Program {
    pub fn name(self) -> &'static str {
        match self {
            Program::Admit => "admit",
            Program::Ticks => "ticks",
            Program::Explain => "explain",
            Program::Rehearse => "rehearse",
        }
    }
}

/// Why there is no answer: exit status 3.
#[derive(Debug)]
pub enum Trouble {
    NoRepository,
    NotBuilt(Program),
    NoFolder(PathBuf, io::Error),
    NotAFolder(PathBuf),
    NotAFile(PathBuf),
    NotStarted(Program, io::Error),
    NoCopies(io::Error),
    Failed {
        program: Program,
        ended: String,
        said: String,
    },
    NoListing(Program),
    NoStandardOutput(io::Error),
    /// Why a chart that was asked for cannot be had.
    NoChart(String),
    Changed,
}

/// The repository's programs.
pub struct Programs {
    root: PathBuf,
}

impl Programs {
    /// Of the repository that this very program stands in.
    pub fn of_this_repository() -> Result<Programs, Trouble> {
        let own = std::env::current_exe().and_then(fs::canonicalize).map_err(|_| Trouble::NoRepository)?;
        let root = own.ancestors().find(|folder| folder.join("tools/run").is_file());
        root.map(Programs::at).ok_or(Trouble::NoRepository)
    }

    pub fn at(root: &Path) -> Programs {
        Programs { root: root.to_path_buf() }
    }

    pub fn built(&self, program: Program) -> bool {
        self.root.join("target/bin").join(program.name()).is_file()
    }

    /// What a program writes in a folder, with these bytes as its standard input.
    pub fn run(&self, program: Program, folder: &Path, input: &[u8]) -> Result<Vec<u8>, Trouble> {
        if !self.built(program) {
            return Err(Trouble::NotBuilt(program));
        }
        let mut child = Command::new(self.root.join("tools/run"))
            .arg(program.name())
            .current_dir(folder)
            .stdin(Stdio::piped())
            .stdout(Stdio::piped())
            .stderr(Stdio::piped())
            .spawn()
            .map_err(|error| Trouble::NotStarted(program, error))?;
        let output = fed(&mut child, input)
            .and_then(|()| child.wait_with_output())
            .map_err(|error| Trouble::NotStarted(program, error))?;
        if output.status.success() {
            return Ok(output.stdout);
        }
        let said = String::from_utf8_lossy(&output.stderr).into_owned();
        Err(Trouble::Failed { program, ended: ended(output.status), said })
    }
}

/// Hands over the whole input: the programs write nothing before they have read it all. One that does not read it is
/// no failure; where a part of it cannot be handed over, the program is ended before it answers for that part alone.
fn fed(child: &mut Child, input: &[u8]) -> io::Result<()> {
    let Some(mut stdin) = child.stdin.take() else { return Ok(()) };
    match stdin.write_all(input) {
        Err(error) if error.kind() != io::ErrorKind::BrokenPipe => {
            let _ = child.kill().and_then(|()| child.wait());
            Err(error)
        }
        _ => Ok(()),
    }
}

fn ended(status: ExitStatus) -> String {
    match (status.code(), status.signal()) {
        (Some(code), _) => format!("exit status {code}"),
        (None, Some(signal)) => format!("signal {signal}"),
        (None, None) => "no exit status".into(),
    }
}

/// A folder of its own, which goes when it is dropped.
pub struct Scratch {
    pub path: PathBuf,
}

impl Scratch {
    pub fn new() -> io::Result<Scratch> {
        let mut last = io::Error::from(io::ErrorKind::AlreadyExists);
        for attempt in 0..100 {
            let nanos = SystemTime::now().duration_since(UNIX_EPOCH).map_or(0, |since| since.as_nanos());
            let name = format!("gorsetumble-{}-{nanos}-{attempt}", std::process::id());
            let path = std::env::temp_dir().join(name);
            match fs::DirBuilder::new().mode(0o700).create(&path) {
                Ok(()) => return fs::canonicalize(&path).map(|path| Scratch { path }),
                Err(error) if error.kind() == io::ErrorKind::AlreadyExists => last = error,
                Err(error) => return Err(error),
            }
        }
        Err(last)
    }

    pub fn put(&self, name: &str, bytes: &[u8]) -> io::Result<()> {
        fs::write(self.path.join(name), bytes)
    }
}

impl Drop for Scratch {
    fn drop(&mut self) {
        let _ = fs::remove_dir_all(&self.path);
    }
}
