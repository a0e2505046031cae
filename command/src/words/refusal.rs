//! Refusals 1 to 8, 15 and 17 in words: where, what stands there, what may stand there, the likely cause, the cure.

use super::{counted, shown};
use crate::cause::{cause, Fault};
use crate::listing::Refused;
use crate::place::{self, Form, Place, State, PLATFORM, TASKS};
use crate::unit::{Text, Unit, LONGEST};
use std::path::Path;

/// Of a line so many bytes are shown from the place on.
const SHOWN: usize = 40;

/// What a refusal's number means.
pub fn meaning(number: u32) -> &'static str {
    match number {
        1 => "there is no task, or there are more than 32",
        2 => "cores is 0 or above 16",
        3 => "partitions is 0 or above 64",
        4 => "T is 0 or above 65,535",
        5 => "C is 0",
        6 => "C is above D",
        7 => "D is above T",
        8 => "A is above the platform's partitions",
        9 => "a tick names a task that the table does not have",
        10 => "a tick says that a task finished which was not running",
        11 => "a job has run its whole C and the tick does not say that it finished",
        12 => "a task is released before its period is over",
        13 => "a task is released while its last job is unfinished",
        14 => "the machine's state is not one that set-up and ticks could leave",
        15 => "a text is not of the wanted form",
        16 => "the room given for the answer is too short",
        _ => "the least common multiple of the periods is above 1,000,000",
    }
}

/// What to do about it.
pub fn cure(number: u32) -> &'static str {
    match number {
        1 => "put 1 to 32 rows into tasks.csv",
        2 | 3 => "correct platform.csv",
        4 => "give the period in ticks; choose a longer tick if it does not fit",
        5 => "give the longest run, at least 1 tick",
        6 => "the job could never end in time: shorten the run or give it longer",
        7 => "a job must end before the next one comes: lower D or raise T",
        8 => "lower A, or use a board with more partitions",
        9 => "correct the report: no task above the table's last",
        10 => "look at the log that the ticks came from",
        11 => "its C is too small, or the report lost the finish",
        12 => "its T is too large, or the sender sends too often",
        13 => "the table was not admitted, or was not the one set up",
        14 => "set the unit up anew; if it comes back, the memory is overwritten by something else",
        15 => "look at the byte at the place",
        16 => "give a longer buffer",
        _ => "round each T to periods that divide each other, as 50, 100 and 200, and rehearse again",
    }
}

/// The first line of every refusal.
pub fn headline(number: u32) -> String {
    format!("refused, number {number}: {}\n", meaning(number))
}

/// Of what is neither a text nor a table.
pub fn of_number(number: u32) -> String {
    format!("  cure: {}\n", cure(number))
}

/// Refusal 17 of a rehearsal, which is about all periods together.
pub fn of_periods() -> String {
    let cause = "a rehearsal goes on until all tasks come together again; periods without a small\n    \
        common multiple, as 1,000 and 1,001, come together too late for it";
    let row_0 = "the listing says row 0: all periods together are at fault, and no single row";
    let unjudged = "admit needs no common multiple: it judges the table as it stands";
    format!("  where: tasks.csv, column T\n  cause: {cause}\n  {row_0}\n{}  {unjudged}\n", of_number(17))
}

/// A text by the name that it was given under, whether it is one of the unit's folder, and this folder.
pub struct Source<'a> {
    pub name: &'a str,
    pub in_folder: bool,
    pub folder: &'a Path,
}

/// Refusal 15 in a text. `None`: the text is not as the refusal says.
pub fn of_text(source: &Source, form: &'static Form, text: &Text, offset: usize) -> Option<String> {
    let whole = Fault { form, text, place: Place::FIRST };
    let fault = match whole.has_place() {
        true => Fault { place: place::place(form, text.given(), offset)?, ..whole },
        false if offset == 0 => whole,
        false => return None,
    };
    let mut words = format!("  where: {}, {}\n", source.name, whereabouts(&fault));
    if fault.has_place() {
        words += &pointed(&fault);
    }
    words += &format!("  there stands: {}\n", standing(&fault));
    words += &format!("  may stand there: {}\n", may_stand(&fault));
    let cause = cause(&fault);
    words += &format!("  likely cause ({}): {}\n  cure: {}\n", cause.name, cause.likely, cause.cure);
    if cause.is_mended_by_tidy(&fault) {
        words += &tidied(source, form);
    }
    Some(words)
}

/// `tidy` looks at the files of the folder alone.
fn tidied(source: &Source, form: &Form) -> String {
    let folder = shown(source.folder);
    match source.in_folder {
        true => format!("  or: gorsetumble tidy {folder} writes a copy in which this is mended\n"),
        false => format!("  or: as {} of the folder it is mended in a copy by gorsetumble tidy {folder}\n", form.file),
    }
}

fn whereabouts(fault: &Fault) -> String {
    let place = &fault.place;
    let row = match place.row() {
        0 => "the header".into(),
        row => format!("row {row}"),
    };
    match fault.has_place() {
        true => format!("line {} ({row}), column {}; place {}, counted from 0", place.line, place.column, place.offset),
        false => "the file as a whole; place 0".into(),
    }
}

/// The line, and a caret under the place.
fn pointed(fault: &Fault) -> String {
    let (start, offset) = (fault.place.line_start(), fault.place.offset);
    let before: String = fault.bytes()[start..offset].iter().map(|&byte| readable(byte)).collect();
    let rest = &fault.bytes()[offset..];
    let line = rest.iter().position(|&byte| byte == b'\n').map_or(rest.len(), |at| at + 1);
    let after: String = rest[..line.min(SHOWN)].iter().map(|&byte| readable(byte)).collect();
    let more = match () {
        () if line > SHOWN => " ...",
        () if line == rest.len() && rest.last() != Some(&b'\n') => "<end>",
        () => "",
    };
    format!("      {before}{after}{more}\n      {}^\n", " ".repeat(before.chars().count()))
}

/// A byte within a line that is shown.
fn readable(byte: u8) -> String {
    match byte {
        b'\r' => "<CR>".into(),
        b'\n' => "<LF>".into(),
        b'\t' => "<TAB>".into(),
        0x20..=0x7E => char::from(byte).into(),
        _ => format!("<{byte:02X}>"),
    }
}

fn standing(fault: &Fault) -> String {
    match fault.text {
        Text::Missing => "no file of this name".into(),
        Text::Unreadable(error) => format!("nothing that can be read ({error})"),
        Text::Bytes(bytes) if bytes.is_empty() => "nothing: it has no byte".into(),
        Text::Bytes(bytes) if bytes.len() > LONGEST => "more than 60,000 bytes".into(),
        Text::Bytes(_) => fault.found().map_or("the end of the file".into(), named),
    }
}

/// A byte by its name.
fn named(byte: u8) -> String {
    match byte {
        b'\r' => "CR".into(),
        b'\n' => "LF".into(),
        b'\t' => "a tab".into(),
        b' ' => "a blank".into(),
        b',' => "a comma".into(),
        b'"' => "a quote (\")".into(),
        b'0'..=b'9' => format!("the digit {}", char::from(byte)),
        b'A'..=b'Z' | b'a'..=b'z' => format!("the letter {}", char::from(byte)),
        0x21..=0x7E => format!("`{}`", char::from(byte)),
        _ => format!("byte 0x{byte:02X}"),
    }
}

fn may_stand(fault: &Fault) -> String {
    let (form, place) = (fault.form, &fault.place);
    let header = form.header;
    match place.state {
        _ if !fault.has_place() => format!("a text of at most 60,000 bytes that begins with the header {header}"),
        State::Header(done) => match header.as_bytes().get(done) {
            Some(b',') => format!("the comma that follows {} in the header {header}", &header[..done]),
            Some(&due) => format!("{} of the header {header}", named(due)),
            None => format!("CR LF, the end of the header {header}"),
        },
        State::AfterCr => "LF, which makes the line's end with the CR before it".into(),
        State::LineStart => match (place.may_stand(form).is_empty(), place.may_end(form)) {
            (true, _) => "the end of the file, and no more".into(),
            (false, true) => "a digit, which begins another row, or the end of the file".into(),
            (false, false) => "a digit, which begins the row".into(),
        },
        State::Before { column } => format!("a digit, which begins {}", column_name(form, column)),
        State::Within { column, .. } => within(fault, column),
    }
}

fn within(fault: &Fault, column: usize) -> String {
    let may = fault.place.may_stand(fault.form);
    let digits: Vec<u8> = may.iter().copied().filter(u8::is_ascii_digit).collect();
    let end = match column + 1 == fault.form.columns {
        true => format!("CR LF after {}, the last column", column_name(fault.form, column)),
        false => format!("a comma after {}", column_name(fault.form, column)),
    };
    match (digits.len(), digits.last()) {
        (10, _) => format!("a further digit, or {end}"),
        (_, Some(&most)) => format!("a digit from 0 to {}, or {end}", char::from(most)),
        (_, None) => end,
    }
}

fn column_name(form: &Form, column: usize) -> &'static str {
    form.header.split(',').nth(column).unwrap_or_default()
}

/// A refusal 1 to 8 of a table. `None`: the texts are not as the refusal says.
pub fn of_table(unit: &Unit, refused: Refused) -> Option<String> {
    let platform = place::rows(&PLATFORM, unit.platform.given())?;
    let tasks = place::rows(&TASKS, unit.tasks.given())?;
    let (start, board) = platform.first()?;
    let (cores, partitions) = (board[0], board[1]);
    let of_board = |column, stands, may: &str| {
        let cell = Cell { form: &PLATFORM, start: *start, row: 1, column };
        cell.words(unit, &(stands, may.into())) + ROW_0
    };
    let said = match (refused.number, refused.row) {
        (1, 0) => of_count(tasks.len())?,
        (2, 0) if !(1..=16).contains(&cores) => of_board(0, format!("cores is {cores}"), "cores from 1 to 16"),
        (3, 0) if !(1..=64).contains(&partitions) => {
            of_board(1, format!("partitions is {partitions}"), "partitions from 1 to 64")
        }
        (number, row) => {
            let (start, task) = tasks.get(row.checked_sub(1)?)?;
            let (column, said) = of_task(number, task, partitions)?;
            Cell { form: &TASKS, start: *start, row, column }.words(unit, &said)
        }
    };
    Some(said + &of_number(refused.number))
}

const ROW_0: &str = "  the listing says row 0: the fault is the board's, and in no row of tasks.csv\n";

fn of_count(rows: usize) -> Option<String> {
    let stands = match rows {
        1..=32 => return None,
        0 => "no row under the header".into(),
        _ => counted(rows, "row"),
    };
    let row_0 = "the listing says row 0: how many rows there are is at fault, and no single row";
    let place = "  where: tasks.csv, the file as a whole\n";
    Some(format!("{place}  there stands: {stands}\n  may stand there: 1 to 32 rows\n  {row_0}\n"))
}

/// What stands in a cell, and what may.
type StandsAndMay = (String, String);

/// The column at fault, and the words for it: for refusals 4 to 8 of a row.
fn of_task(number: u32, task: &[u32], partitions: u32) -> Option<(usize, StandsAndMay)> {
    let [d, t, c, a] = *task else { return None };
    let fits = |holds: bool, column, stands: String, may: &str| holds.then(|| (column, (stands, may.into())));
    match number {
        4 => fits(!(1..=65535).contains(&t), 1, format!("T is {t}"), "T from 1 to 65,535"),
        5 => fits(c == 0, 2, format!("C is {c}"), "C from 1 to D"),
        6 => fits(c > d, 2, format!("C is {c} and D is {d}"), "C from 1 to D"),
        7 => fits(d > t, 0, format!("D is {d} and T is {t}"), "D from C to T"),
        8 => {
            let stands = format!("A is {a}, and platform.csv has {}", counted(partitions as usize, "partition"));
            fits(a > partitions, 3, stands, &format!("A from 0 to {partitions}"))
        }
        _ => None,
    }
}

/// A cell of a good text.
struct Cell {
    form: &'static Form,
    /// The offset of its line.
    start: usize,
    row: usize,
    column: usize,
}

impl Cell {
    /// The row as it stands, a caret under the cell, and what is said of it.
    fn words(&self, unit: &Unit, (stands, may): &StandsAndMay) -> String {
        let text = &unit.text(self.form).given()[self.start..];
        let line = text.split(|&byte| byte == b'\r').next().unwrap_or_default();
        let line: String = line.iter().copied().map(char::from).collect();
        let before: usize = line.split(',').take(self.column).map(|cell| cell.len() + 1).sum();
        let (row, column) = (self.row, column_name(self.form, self.column));
        let place = format!("  where: {}, line {} (row {row}), column {column}\n", self.form.file, row + 1);
        let pointer = format!("      {line}\n      {}^\n", " ".repeat(before));
        format!("{place}{pointer}  there stands: {stands}\n  may stand there: {may}\n")
    }
}

#[cfg(test)]
mod tests {
    use super::*;
    use crate::place::tests::{Draw, FORMS};
    use crate::place::REPORTS;

    fn of(form: &'static Form, bytes: &[u8], offset: usize) -> String {
        let source = Source { name: form.file, in_folder: true, folder: Path::new("unit") };
        of_text(&source, form, &Text::Bytes(bytes.to_vec()), offset).expect("as the refusal says")
    }

    #[test]
    fn a_place_in_a_text() {
        let wanted = "  where: tasks.csv, line 2 (row 1), column 10; place 18, counted from 0\n\
            \x20     40,50,2,1<LF>\n\
            \x20              ^\n\
            \x20 there stands: LF\n\
            \x20 may stand there: a further digit, or CR LF after A, the last column\n\
            \x20 likely cause (LF line ends): the line ends in LF alone, as on Linux and macOS\n\
            \x20 cure: save with CR LF line ends (in an editor: \"CRLF\", \"DOS\" or \"Windows\" line ends)\n\
            \x20 or: gorsetumble tidy unit writes a copy in which this is mended\n";
        assert_eq!(of(&TASKS, b"D,T,C,A\r\n40,50,2,1\n60,60,3,2\n", 18), wanted);
    }

    #[test]
    fn what_may_stand() {
        for (form, text, may) in [
            (&PLATFORM, "Cores", "the letter c of the header cores,partitions"),
            (&TASKS, "D;T", "the comma that follows D in the header D,T,C,A"),
            (&TASKS, "D,T,C,A\n", "CR LF, the end of the header D,T,C,A"),
            (&TASKS, "D,T,C,A\rx", "LF, which makes the line's end with the CR before it"),
            (&TASKS, "D,T,C,A\r\n\r\n", "a digit, which begins another row, or the end of the file"),
            (&PLATFORM, "cores,partitions\r\n", "a digit, which begins the row"),
            (&PLATFORM, "cores,partitions\r\n1,1\r\n1", "the end of the file, and no more"),
            (&TASKS, "D,T,C,A\r\n1,,", "a digit, which begins T"),
            (&TASKS, "D,T,C,A\r\n1;", "a further digit, or a comma after D"),
            (&TASKS, "D,T,C,A\r\n01", "a comma after D"),
            (&TASKS, "D,T,C,A\r\n4294967296", "a digit from 0 to 5, or a comma after D"),
            (&TASKS, "D,T,C,A\r\n1,1,1,4294967295,", "CR LF after A, the last column"),
        ] {
            let bytes = text.as_bytes();
            let offset = (0..=bytes.len()).find(|&at| place::place(form, bytes, at).is_some()).unwrap();
            assert!(of(form, bytes, offset).contains(&format!("  may stand there: {may}\n")), "{text:?}");
        }
    }

    #[test]
    fn periods_without_a_small_multiple() {
        let words = headline(17) + &of_periods();
        for said in ["above 1,000,000\n", "  where: tasks.csv, column T\n", "row 0", "  cure: round each T"] {
            assert!(words.contains(said), "{words}");
        }
        assert!(words.lines().all(|line| line.chars().count() <= 100), "{words}");
    }

    #[test]
    fn odd_bytes_are_shown_by_name() {
        let binary = of(&TASKS, b"D,T,C,A\r\n1,\x1B[2J\xEF,1\r\n", 11);
        assert!(binary.contains("      1,<1B>[2J<EF>,1<CR><LF>\n        ^\n  there stands: byte 0x1B\n"), "{binary}");
        let long = of(&TASKS, &[b"D,T,C,A\r\n".to_vec(), vec![b'x'; 500]].concat(), 9);
        assert!(long.contains(&format!("      {} ...\n      ^\n", "x".repeat(SHOWN))));
        let mut draw = Draw(5);
        for round in 0..2000 {
            let form = FORMS[round % 3];
            let text = draw.damaged(form);
            let found = (0..=text.len()).find(|&at| place::place(form, &text, at).is_some());
            let Some(offset) = found.filter(|_| !text.is_empty()) else { continue };
            let words = of(form, &text, offset);
            assert!(words.bytes().all(|byte| byte == b'\n' || (0x20..0x7F).contains(&byte)), "{words:?}");
            let caret = words.lines().position(|line| line.trim() == "^").unwrap();
            let (line, pointer) = (words.lines().nth(caret - 1).unwrap(), words.lines().nth(caret).unwrap());
            let pointed = text.get(offset).map_or("<end>".into(), |&byte| readable(byte));
            assert!(line[pointer.len() - 1..].starts_with(&pointed), "{words}");
        }
    }

    #[test]
    fn a_text_as_a_whole() {
        let source = Source { name: "log.csv", in_folder: false, folder: Path::new("unit") };
        let missing = of_text(&source, &REPORTS, &Text::Missing, 0).unwrap();
        assert!(
            missing.contains("  where: log.csv, the file as a whole; place 0\n  there stands: no file"),
            "{missing}"
        );
        assert_eq!(of_text(&source, &REPORTS, &Text::Missing, 1), None);
        assert_eq!(of_text(&source, &REPORTS, &Text::Bytes(b"released,finished\r\n".to_vec()), 0), None);
        let lf = of_text(&source, &REPORTS, &Text::Bytes(b"released,finished\n".to_vec()), 17).unwrap();
        assert!(
            lf.ends_with("  or: as reports.csv of the folder it is mended in a copy by gorsetumble tidy unit\n"),
            "{lf}"
        );
    }

    #[test]
    fn tables() {
        let of = |platform: &str, tasks: &str, number, row| {
            let text = |header: &str, rows: &str| Text::Bytes(format!("{header}\r\n{rows}").into_bytes());
            let (platform, tasks) = (text("cores,partitions", platform), text("D,T,C,A", tasks));
            of_table(&Unit { platform, tasks, reports: Text::Missing }, Refused { number, row })
        };
        let wanted = "  where: tasks.csv, line 3 (row 2), column C\n\
            \x20     80,100,90,2\n             ^\n  there stands: C is 90 and D is 80\n\
            \x20 may stand there: C from 1 to D\n\
            \x20 cure: the job could never end in time: shorten the run or give it longer\n";
        assert_eq!(of("2,4\r\n", "1,1,1,0\r\n80,100,90,2\r\n", 6, 2).unwrap(), wanted);
        for (platform, row, number, stands) in [
            ("17,4\r\n", "1,1,1,0\r\n", 2, "cores is 17"),
            ("2,65\r\n", "1,1,1,0\r\n", 3, "partitions is 65"),
            ("2,4\r\n", "1,65536,1,0\r\n", 4, "T is 65536"),
            ("2,4\r\n", "1,0,1,0\r\n", 4, "T is 0"),
            ("2,4\r\n", "1,1,0,0\r\n", 5, "C is 0"),
            ("2,4\r\n", "5,4,1,0\r\n", 7, "D is 5 and T is 4"),
            ("2,4\r\n", "1,1,1,5\r\n", 8, "A is 5, and platform.csv has 4 partitions"),
        ] {
            let row_named = usize::from(number > 3);
            let words = of(platform, row, number, row_named).unwrap();
            assert!(words.contains(&format!("  there stands: {stands}\n")), "{words}");
            assert_eq!(words.contains("the listing says row 0"), row_named == 0);
            assert_eq!(of("2,4\r\n", "1,1,1,0\r\n", number, row_named), None, "a good table has no fault {number}");
        }
        assert!(of("2,4\r\n", "", 1, 0).unwrap().contains("there stands: no row under the header"));
        assert!(of("2,4\r\n", &"1,1,1,0\r\n".repeat(33), 1, 0).unwrap().contains("there stands: 33 rows"));
        assert_eq!(of("2,4\r\n", "1,1,1,0\r\n", 1, 0), None);
        assert_eq!(of("2,4\r\n", "1,1,1,0\r\n", 5, 2), None, "no such row");
    }
}
