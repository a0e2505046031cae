//! A file that is there whole or not at all.

use std::ffi::OsString;
use std::fs::{self, File};
use std::io::{self, Write};
use std::path::{Path, PathBuf};

/// Written beside its place under another name; it goes again if it is not put there.
pub struct Unplaced {
    written: PathBuf,
    place: PathBuf,
}

impl Unplaced {
    pub fn new(place: &Path, bytes: &[u8]) -> io::Result<Unplaced> {
        let place = followed(place)?;
        let mut name = OsString::from(format!(".chart-{}-", std::process::id()));
        name.push(place.file_name().unwrap_or_default());
        let written = place.with_file_name(name);
        let mut file = File::create_new(&written)?;
        let unplaced = Unplaced { written, place };
        file.write_all(bytes)?;
        file.sync_all()?;
        Ok(unplaced)
    }

    /// In the place of what may stand there.
    pub fn put(self) -> io::Result<()> {
        fs::rename(&self.written, &self.place)
    }
}

impl Drop for Unplaced {
    fn drop(&mut self) {
        let _ = fs::remove_file(&self.written);
    }
}

/// The place with every symbolic link followed; it has an ordinary file or nothing.
fn followed(place: &Path) -> io::Result<PathBuf> {
    if place.symlink_metadata().is_ok() {
        let real = fs::canonicalize(place)?;
        return match fs::metadata(&real)?.is_file() {
            true => Ok(real),
            false => Err(io::Error::other("what stands there is no ordinary file")),
        };
    }
    let parent = match place.parent() {
        Some(parent) if parent != Path::new("") => parent,
        _ => Path::new("."),
    };
    Ok(fs::canonicalize(parent)?.join(place.file_name().unwrap_or_default()))
}

#[cfg(test)]
mod tests {
    use super::*;
    use crate::run::Scratch;
    use std::os::unix::fs::symlink;

    #[test]
    fn put_whole_or_not_at_all() {
        let scratch = Scratch::new().unwrap();
        let names = || {
            let mut names: Vec<OsString> =
                fs::read_dir(&scratch.path).unwrap().map(|entry| entry.unwrap().file_name()).collect();
            names.sort();
            names
        };
        let chart = scratch.path.join("chart.svg");
        scratch.put("chart.svg", b"old").unwrap();
        drop(Unplaced::new(&chart, b"new").unwrap());
        assert_eq!(fs::read(&chart).unwrap(), b"old");
        assert_eq!(names(), ["chart.svg"]);
        Unplaced::new(&chart, b"new").unwrap().put().unwrap();
        assert_eq!(fs::read(&chart).unwrap(), b"new");
        assert_eq!(names(), ["chart.svg"]);
        symlink("chart.svg", scratch.path.join("link.svg")).unwrap();
        Unplaced::new(&scratch.path.join("link.svg"), b"newer").unwrap().put().unwrap();
        assert_eq!(fs::read(&chart).unwrap(), b"newer", "a link stays one");
        assert_eq!(names(), ["chart.svg", "link.svg"]);
        fs::create_dir(scratch.path.join("folder.svg")).unwrap();
        symlink("nowhere", scratch.path.join("dangling.svg")).unwrap();
        for place in ["folder.svg", "dangling.svg", "nowhere/chart.svg"] {
            assert!(Unplaced::new(&scratch.path.join(place), b"new").is_err(), "{place}");
        }
        assert!(Unplaced::new(Path::new("/dev/null"), b"new").is_err());
        assert_eq!(names(), ["chart.svg", "dangling.svg", "folder.svg", "link.svg"]);
    }
}
