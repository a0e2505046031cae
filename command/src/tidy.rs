//! `gorsetumble tidy FOLDER [INTO]`: copies of a unit's texts with line ends, byte order mark, separators and last line
//! put right. It changes how the numbers are written down and never a number; whether a copy is good is for the proved
//! programs to say.

use crate::words::shown;
use std::fs::{self, File};
use std::io::{self, Read, Write};
use std::path::{Path, PathBuf};

/// The texts of a unit, in the order in which the programs read them.
const TEXTS: [&str; 3] = ["platform.csv", "tasks.csv", "reports.csv"];

/// Far more than a text of a unit has: a program takes 60,000 bytes, which in UTF-16 are twice as many.
const LONGEST: u64 = 1_000_000;

const COPIED: u8 = 0;
const NOT_COPIED: u8 = 3;

const UTF8_MARK: &[u8] = &[0xEF, 0xBB, 0xBF];

#[derive(Clone, Copy, PartialEq, Eq, PartialOrd, Ord, Debug)]
pub enum Kind {
    Utf16,
    ByteOrderMark,
    Semicolons,
    Tabs,
    LineFeed,
    CarriageReturn,
    TwoCarriageReturns,
    LastLineEnd,
    BlankLastLine,
}

/// One kind of change to neighbouring lines; lines count from 1 in the text as it was.
#[derive(Clone, PartialEq, Eq, Debug)]
pub struct Change {
    pub first: usize,
    pub last: usize,
    pub kind: Kind,
}

impl Change {
    fn words(&self) -> String {
        let what = match self.kind {
            Kind::Utf16 => "UTF-16 turned to plain bytes",
            Kind::ByteOrderMark => "the byte order mark (EF BB BF) taken away",
            Kind::Semicolons => "semicolons turned to commas",
            Kind::Tabs => "tabs turned to commas",
            Kind::LineFeed => "line end LF turned to CR LF",
            Kind::CarriageReturn => "line end CR turned to CR LF",
            Kind::TwoCarriageReturns => "line end CR CR LF turned to CR LF",
            Kind::LastLineEnd => "CR LF added at the end",
            Kind::BlankLastLine if self.first == self.last => "blank last line taken away",
            Kind::BlankLastLine => "blank last lines taken away",
        };
        match self.kind {
            Kind::Utf16 => what.to_string(),
            _ if self.first == self.last => format!("line {}: {what}", self.first),
            _ => format!("lines {} to {}: {what}", self.first, self.last),
        }
    }
}

/// The changes, where the same kind on the next line lengthens the last one.
#[derive(Default)]
struct Changes(Vec<Change>);

impl Changes {
    fn add(&mut self, line: usize, kind: Kind) {
        match self.0.iter_mut().rev().find(|change| change.kind == kind) {
            Some(change) if change.last + 1 == line => change.last = line,
            _ => self.0.push(Change { first: line, last: line, kind }),
        }
    }

    fn in_order(mut self) -> Vec<Change> {
        self.0.sort_by_key(|change| (change.first, change.kind));
        self.0
    }
}

#[derive(Clone, Copy, PartialEq, Eq)]
enum LineEnd {
    CrLf,
    Lf,
    Cr,
    CrCrLf,
    None,
}

/// The first line of a text that is not empty, how it ends, and the rest. CR CR LF is what turning LF into CR LF twice
/// leaves, and one end.
fn split_line(text: &[u8]) -> (&[u8], LineEnd, &[u8]) {
    let Some(at) = text.iter().position(|&byte| byte == b'\r' || byte == b'\n') else {
        return (text, LineEnd::None, &[]);
    };
    let (end, length) = match &text[at..] {
        [b'\r', b'\n', ..] => (LineEnd::CrLf, 2),
        [b'\r', b'\r', b'\n', ..] => (LineEnd::CrCrLf, 3),
        [b'\r', ..] => (LineEnd::Cr, 1),
        _ => (LineEnd::Lf, 1),
    };
    (&text[..at], end, &text[at + length..])
}

/// The characters of a UTF-16 text with its mark, if all of them are plain text in ASCII; a NUL is none, so UTF-32 is
/// not taken for UTF-16.
fn from_utf16(bytes: &[u8]) -> Option<Vec<u8>> {
    let (low, high) = match bytes.get(..2)? {
        [0xFF, 0xFE] => (0, 1),
        [0xFE, 0xFF] => (1, 0),
        _ => return None,
    };
    let pairs = bytes[2..].chunks_exact(2);
    if !pairs.remainder().is_empty() {
        return None;
    }
    let plain = |byte: u8| matches!(byte, b'\t' | b'\n' | b'\r' | b' '..=b'~');
    pairs.map(|pair| (pair[high] == 0 && plain(pair[low])).then_some(pair[low])).collect()
}

/// The line with commas: its semicolons, or where it has none its tabs, are taken for separators only if it has no
/// comma, since a comma beside them may stand for a decimal point.
fn with_commas(line: &[u8]) -> (Vec<u8>, Option<Kind>) {
    let (separator, kind) = match () {
        () if line.contains(&b',') => return (line.to_vec(), None),
        () if line.contains(&b';') => (b';', Kind::Semicolons),
        () if line.contains(&b'\t') => (b'\t', Kind::Tabs),
        () => return (line.to_vec(), None),
    };
    (line.iter().map(|&byte| if byte == separator { b',' } else { byte }).collect(), Some(kind))
}

/// The text tidied, and what was changed. Quotes, blanks, signs, leading zeros and a header's letters stay, for `admit`
/// to refuse; so does everything in bytes that are no text (a NUL in them, or UTF-16 beyond ASCII).
pub fn tidied(bytes: &[u8]) -> (Vec<u8>, Vec<Change>) {
    let mut changes = Changes::default();
    let decoded = from_utf16(bytes);
    if decoded.is_some() {
        changes.add(1, Kind::Utf16);
    } else if bytes.contains(&0) {
        return (bytes.to_vec(), Vec::new());
    }
    let mut rest = decoded.as_deref().unwrap_or(bytes);
    while let Some(behind) = rest.strip_prefix(UTF8_MARK) {
        rest = behind;
        changes.add(1, Kind::ByteOrderMark);
    }
    let text = tidied_lines(rest, &mut changes);
    (text, changes.in_order())
}

fn tidied_lines(whole: &[u8], changes: &mut Changes) -> Vec<u8> {
    let mut text = Vec::with_capacity(whole.len() + 2);
    let blank_from = whole.iter().rposition(|byte| !matches!(byte, b'\r' | b'\n')).map_or(0, |last| last + 1);
    let (mut rest, mut line_number) = (whole, 0);
    while !rest.is_empty() {
        let (line, end, behind) = split_line(rest);
        let is_blank_last = whole.len() - rest.len() >= blank_from;
        line_number += 1;
        rest = behind;
        if is_blank_last {
            changes.add(line_number, Kind::BlankLastLine);
            continue;
        }
        let (line, separators) = with_commas(line);
        text.extend_from_slice(&line);
        text.extend_from_slice(b"\r\n");
        let end = match end {
            LineEnd::CrLf => None,
            LineEnd::Lf => Some(Kind::LineFeed),
            LineEnd::Cr => Some(Kind::CarriageReturn),
            LineEnd::CrCrLf => Some(Kind::TwoCarriageReturns),
            LineEnd::None => Some(Kind::LastLineEnd),
        };
        separators.into_iter().chain(end).for_each(|kind| changes.add(line_number, kind));
    }
    text
}

/// FOLDER with `-tidy` added; for a folder named by `.` or `..` its own name is taken.
fn beside(folder: &Path) -> Result<PathBuf, String> {
    let named = match folder.file_name() {
        Some(_) => folder.to_path_buf(),
        None => fs::canonicalize(folder).map_err(|error| format!("{} is not there: {error}", shown(folder)))?,
    };
    let mut name = named.file_name().ok_or("this folder has no name: say where the copies go")?.to_os_string();
    name.push("-tidy");
    Ok(named.with_file_name(name))
}

/// Where the copies go, with every symbolic link of the way followed: nowhere where something is, and not into the
/// folder itself.
fn target(folder: &Path, into: &Path) -> Result<PathBuf, String> {
    let name_shown = shown(into);
    let whole = fs::canonicalize(folder).map_err(|error| format!("{} is not there: {error}", shown(folder)))?;
    if into.symlink_metadata().is_ok() {
        return Err(format!("{name_shown} is there already: name a folder that is not"));
    }
    let name = into.file_name().ok_or_else(|| format!("{name_shown} has no name of its own"))?;
    let parent = match into.parent() {
        Some(parent) if parent != Path::new("") => parent,
        _ => Path::new("."),
    };
    let parent = fs::canonicalize(parent)
        .map_err(|error| format!("the folder that {name_shown} would stand in is not there: {error}"))?;
    if parent.starts_with(&whole) {
        return Err(format!("{name_shown} is inside {}: the copies go elsewhere", shown(folder)));
    }
    Ok(parent.join(name))
}

/// The bytes of a text of the folder, or none where it is not there.
fn read_text(path: &Path) -> Result<Option<Vec<u8>>, String> {
    let file_shown = shown(path);
    let kind = match fs::metadata(path) {
        Err(error) if error.kind() == io::ErrorKind::NotFound && path.symlink_metadata().is_err() => return Ok(None),
        other => other.map_err(|error| format!("{file_shown} cannot be read: {error}"))?,
    };
    if !kind.is_file() {
        return Err(format!("{file_shown} is not a file"));
    }
    let mut bytes = Vec::new();
    let file = File::open(path).map_err(|error| format!("{file_shown} cannot be read: {error}"))?;
    file.take(LONGEST + 1).read_to_end(&mut bytes).map_err(|error| format!("{file_shown} cannot be read: {error}"))?;
    if bytes.len() as u64 > LONGEST {
        return Err(format!("{file_shown} is over {LONGEST} bytes: no text of a unit is as long"));
    }
    Ok(Some(bytes))
}

struct TidiedText {
    name: &'static str,
    text: Vec<u8>,
    changes: Vec<Change>,
}

fn copies(folder: &Path) -> Result<Vec<TidiedText>, String> {
    if !folder.is_dir() {
        return Err(format!("{} is not a folder", shown(folder)));
    }
    let mut copies = Vec::new();
    for name in TEXTS {
        if let Some(bytes) = read_text(&folder.join(name))? {
            let (text, changes) = tidied(&bytes);
            copies.push(TidiedText { name, text, changes });
        }
    }
    if copies.is_empty() {
        return Err(format!("{} has none of {}", shown(folder), TEXTS.join(", ")));
    }
    Ok(copies)
}

/// Writes a new folder under another name beside its place and renames it when all of it is on the disk, so that a
/// failure leaves nothing.
fn write_folder(copies: &[TidiedText], place: &Path) -> io::Result<()> {
    let mut name = std::ffi::OsString::from(format!(".tidy-{}-", std::process::id()));
    name.push(place.file_name().unwrap_or_default());
    let unfinished = place.with_file_name(name);
    fs::create_dir(&unfinished)?;
    let written = write_texts(copies, &unfinished).and_then(|()| fs::rename(&unfinished, place));
    if written.is_err() {
        let _ = fs::remove_dir_all(&unfinished);
    }
    written
}

fn write_texts(copies: &[TidiedText], folder: &Path) -> io::Result<()> {
    for copy in copies {
        let mut file = File::create_new(folder.join(copy.name))?;
        file.write_all(&copy.text)?;
        file.sync_all()?;
    }
    Ok(())
}

fn changes_in_words(copies: &[TidiedText]) -> String {
    let mut words = String::new();
    for copy in copies {
        if copy.changes.is_empty() {
            words += &format!("{}: nothing to change\n", copy.name);
        }
        for change in &copy.changes {
            words += &format!("{}: {}\n", copy.name, change.words());
        }
    }
    words
}

fn tidy(folder: &Path, into: Option<&Path>) -> Result<String, String> {
    let copies = copies(folder)?;
    let into = match into {
        Some(into) => into.to_path_buf(),
        None => beside(folder)?,
    };
    let place = target(folder, &into)?;
    let name_shown = shown(&into);
    write_folder(&copies, &place).map_err(|error| format!("{name_shown} could not be written: {error}"))?;
    let changes = changes_in_words(&copies);
    Ok(format!(
        "tidied copies are in {name_shown}; {} is as it was\n{changes}\
         the copies are not judged yet: run `gorsetumble admit {name_shown}`\n",
        shown(folder)
    ))
}

/// The exit status: 0 if the copies are written, 3 if not; and then nothing is.
pub fn run(folder: &Path, into: Option<&Path>, quiet: bool) -> u8 {
    let (status, words) = match tidy(folder, into) {
        Ok(words) => (COPIED, words),
        Err(reason) => (NOT_COPIED, format!("gorsetumble: nothing is copied: {reason}\n")),
    };
    if !quiet {
        // Words that nobody can read are no failure of the copies.
        let _ = io::stderr().write_all(words.as_bytes());
    }
    status
}

#[cfg(test)]
mod tests {
    use super::*;

    /// A small generator (xorshift), so that a failure comes again.
    struct Dice(u64);

    impl Dice {
        fn below(&mut self, bound: usize) -> usize {
            self.0 ^= self.0 << 13;
            self.0 ^= self.0 >> 7;
            self.0 ^= self.0 << 17;
            (self.0 >> 11) as usize % bound
        }

        fn any_text(&mut self) -> Vec<u8> {
            const PIECES: [&[u8]; 20] = [
                b"0",
                b"7",
                b"42",
                b"4294967296",
                b",",
                b",",
                b";",
                b";",
                b"\t",
                b" ",
                b"\"",
                b"-",
                b"D,T,C,A",
                b"\r\n",
                b"\r\n",
                b"\n",
                b"\r",
                b"\xEF\xBB\xBF",
                b"\xFF\xFE",
                b"\0",
            ];
            let pieces = PIECES.len() - self.below(3);
            (0..self.below(24)).flat_map(|_| PIECES[self.below(pieces)].to_vec()).collect()
        }

        fn good_lines(&mut self) -> Vec<String> {
            let header = ["cores,partitions", "D,T,C,A", "released,finished"][self.below(3)];
            let columns = header.split(',').count();
            let mut row = || (0..columns).map(|_| self.below(70_000).to_string()).collect::<Vec<_>>().join(",");
            let rows = [row(), row(), row(), row()];
            let count = self.below(5);
            std::iter::once(header.to_string()).chain(rows.into_iter().take(count)).collect()
        }
    }

    fn joined(lines: &[String], end: &str) -> Vec<u8> {
        lines.iter().flat_map(|line| format!("{line}{end}").into_bytes()).collect()
    }

    fn changed(first: usize, last: usize, kind: Kind) -> Change {
        Change { first, last, kind }
    }

    fn numbers(text: &[u8]) -> Vec<&[u8]> {
        text.split(|byte| !byte.is_ascii_digit()).filter(|digits| !digits.is_empty()).collect()
    }

    #[test]
    fn a_good_text_comes_back_unchanged() {
        let mut dice = Dice(1);
        for _ in 0..2_000 {
            let text = joined(&dice.good_lines(), "\r\n");
            assert_eq!(tidied(&text), (text, Vec::new()));
        }
    }

    #[test]
    fn tidying_twice_is_tidying_once_and_no_number_changes() {
        let mut dice = Dice(2);
        for _ in 0..50_000 {
            let text = dice.any_text();
            let (once, changes) = tidied(&text);
            assert_eq!(tidied(&once), (once.clone(), Vec::new()), "{text:?}");
            assert_eq!(changes.is_empty(), once == text, "{text:?}");
            assert_eq!(numbers(&once), numbers(&text), "{text:?}");
        }
    }

    #[test]
    fn a_good_text_spoilt_in_the_listed_ways_is_mended() {
        let mut dice = Dice(3);
        for _ in 0..5_000 {
            let lines = dice.good_lines();
            let end = ["\r\n", "\n", "\r", "\r\r\n"][dice.below(4)];
            let separator = [",", ";", "\t"][dice.below(3)];
            let mut spoilt = joined(&lines, end);
            if dice.below(2) == 0 {
                spoilt.truncate(spoilt.len() - end.len());
            }
            (0..dice.below(3)).for_each(|_| spoilt.extend_from_slice(end.as_bytes()));
            spoilt = String::from_utf8(spoilt).unwrap().replace(',', separator).into_bytes();
            spoilt = match dice.below(4) {
                0 => [UTF8_MARK, &spoilt].concat(),
                1 => utf16(&spoilt, u16::to_le_bytes),
                2 => utf16(&spoilt, u16::to_be_bytes),
                _ => spoilt,
            };
            assert_eq!(tidied(&spoilt).0, joined(&lines, "\r\n"), "{spoilt:?}");
        }
    }

    fn utf16(text: &[u8], unit: fn(u16) -> [u8; 2]) -> Vec<u8> {
        std::iter::once(0xFEFF).chain(text.iter().map(|&byte| u16::from(byte))).flat_map(unit).collect()
    }

    #[test]
    fn changes_name_lines_of_the_text_as_it_was() {
        let (text, changes) = tidied(b"\xEF\xBB\xBFD;T;C;A\n1,2,3,4\r\n5\t6\t7\t8\r9,9,9,9\n9;9;9;9\n\r\n\n");
        assert_eq!(text, b"D,T,C,A\r\n1,2,3,4\r\n5,6,7,8\r\n9,9,9,9\r\n9,9,9,9\r\n");
        let wanted = [
            changed(1, 1, Kind::ByteOrderMark),
            changed(1, 1, Kind::Semicolons),
            changed(1, 1, Kind::LineFeed),
            changed(3, 3, Kind::Tabs),
            changed(3, 3, Kind::CarriageReturn),
            changed(4, 5, Kind::LineFeed),
            changed(5, 5, Kind::Semicolons),
            changed(6, 7, Kind::BlankLastLine),
        ];
        assert_eq!(changes, wanted);
        assert_eq!(wanted[5].words(), "lines 4 to 5: line end LF turned to CR LF");
    }

    #[test]
    fn what_is_not_for_tidy_stays() {
        for text in [
            &b"\"D\",\"T\"\r\n"[..],
            b"d,t,c,a\r\n",
            b"D,T,C,A\r\n\r\n1,2,3,4\r\n",
            b"D,T,C,A\r\n 1,+2,03,4.5\r\n",
            b"1,5;2\r\n",
            b"PK\x03\x04\0\0\n;\n",
            b"\xFF\xFE1\0\xE9\0\n\0",
            b"\xFF\xFE\0\x001\0\0\0",
            b"",
        ] {
            assert_eq!(tidied(text), (text.to_vec(), Vec::new()));
        }
    }

    #[test]
    fn a_long_blank_text_is_done_at_once() {
        assert_eq!(
            tidied(&[b'\n'; LONGEST as usize]),
            (Vec::new(), vec![changed(1, LONGEST as usize, Kind::BlankLastLine)])
        );
    }
}
