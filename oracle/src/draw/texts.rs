//! Texts: good ones from drawn tables and reports, and the same with bytes, numbers, lines or their ends spoiled.

use crate::draw::{rehearsals, reports, states, tables};
use crate::machine::Machine;
use crate::programs::LONGEST;
use crate::rng::Rng;
use crate::table::Table;
use crate::texts::{write, Form, PLATFORM, TASKS, TICKS};

/// The three texts that a program is given. `None` is a file that is missing.
pub struct Three {
    pub platform: Option<Vec<u8>>,
    pub tasks: Option<Vec<u8>>,
    pub ticks: Vec<u8>,
}

pub fn platform_rows(table: &Table) -> Vec<Vec<u32>> {
    vec![vec![table.m, table.p]]
}

pub fn task_rows(table: &Table) -> Vec<Vec<u32>> {
    table.tasks().iter().map(|i| vec![i.d, i.t, i.c, i.a]).collect()
}

/// A table with as many rows as it says: mostly good, sometimes of none, 33 or hundreds.
fn table(rng: &mut Rng) -> Table {
    let mut table = match rng.range(0, 9) {
        0 | 1 => states::busy_table(rng),
        2 | 3 => rehearsals::small(rng),
        4 | 5 => tables::edge(rng),
        6 => tables::tiny(rng),
        7 | 8 => tables::damaged(rng),
        _ => tables::any(rng),
    };
    if table.n as usize > table.rows.len() {
        let more = rng.pick(&[33, 34, 100, 700]);
        let row = table.rows.first().copied().unwrap_or_default();
        table.rows.resize(more, row);
    }
    table.n = table.n.min(table.rows.len() as u64);
    table
}

/// Reports that a machine set up from the table could get, or any rows where it cannot be set up.
fn report_rows(rng: &mut Rng, table: &Table) -> Vec<Vec<u32>> {
    let length = rng.range(0, 60);
    let Ok(mut machine) = Machine::fresh(table) else {
        return (0..length).map(|_| vec![rng.scaled(0, u32::MAX), rng.scaled(0, u32::MAX)]).collect();
    };
    let habit = reports::habit(rng);
    let mut rows = vec![];
    for _ in 0..length {
        let (released, finished) = reports::any(rng, &machine, habit);
        rows.push(vec![released, finished]);
        if let Ok((next, _)) = machine.tick(released, finished) {
            machine = next;
        }
    }
    rows
}

/// Which texts get a fault, half of the time none: 1 is for the platform, 2 for the tasks, 4 for the ticks.
fn faults(rng: &mut Rng) -> u32 {
    if rng.once_in(2) {
        0
    } else {
        rng.range(1, 7)
    }
}

/// Platform and tasks text of a table; each may be spoiled, missing or too long.
fn two(rng: &mut Rng, table: &Table, faults: u32) -> [Option<Vec<u8>>; 2] {
    let mut platform = Some(write(&PLATFORM, &platform_rows(table)));
    let mut tasks = Some(write(&TASKS, &task_rows(table)));
    if faults & 1 != 0 && rng.once_in(3) {
        platform = damage(rng, &PLATFORM, platform);
    }
    if faults & 2 != 0 {
        tasks = damage(rng, &TASKS, tasks);
    }
    [platform, tasks]
}

/// Texts of the three forms that belong together and have no fault, mostly of a table that is not refused.
pub fn whole(rng: &mut Rng) -> [Vec<u8>; 3] {
    let table = if rng.once_in(4) { table(rng) } else { states::busy_table(rng) };
    let ticks = report_rows(rng, &table);
    [write(&PLATFORM, &platform_rows(&table)), write(&TASKS, &task_rows(&table)), write(&TICKS, &ticks)]
}

/// Three texts that belong together; each may be spoiled, missing or too long.
pub fn three(rng: &mut Rng) -> Three {
    let table = table(rng);
    let ticks = report_rows(rng, &table);
    let faults = faults(rng);
    let [platform, tasks] = two(rng, &table, faults);
    let mut ticks = write(&TICKS, &ticks);
    if faults & 4 != 0 {
        ticks = damage(rng, &TICKS, Some(ticks)).unwrap_or_default();
    }
    Three { platform, tasks, ticks }
}

/// Platform and tasks text as a caller in C has them, who has no bytes of a file that is missing. In one table of four
/// one task alone does not pass, so that it is every task's turn.
pub fn pair(rng: &mut Rng) -> [Vec<u8>; 2] {
    let table = if rng.once_in(4) { tables::one_short(rng) } else { table(rng) };
    let faults = faults(rng);
    two(rng, &table, faults).map(Option::unwrap_or_default)
}

fn damage(rng: &mut Rng, form: &Form, text: Option<Vec<u8>>) -> Option<Vec<u8>> {
    if rng.once_in(16) {
        return None;
    }
    if rng.once_in(64) {
        return Some(long(rng, form));
    }
    Some(spoiled(rng, form, text?))
}

/// A text of the form of about 60,000 bytes: exactly as long as a program takes, one byte longer, or one shorter.
fn long(rng: &mut Rng, form: &Form) -> Vec<u8> {
    let wanted = LONGEST + rng.index(3) - 1;
    let mut text = write(form, &[]);
    let row = |last: &str| format!("{}{last}\r\n", "1,".repeat(form.columns - 1));
    while wanted - text.len() >= 2 * row("1").len() {
        text.extend(row("1").bytes());
    }
    let digits = wanted - text.len() - row("").len();
    let digits = digits.min(9);
    text.extend(row(&"1".repeat(digits)).bytes());
    text
}

/// The longest text of a case, so that one that doubles again and again ends.
const ROOM: usize = 65_536;

/// A text of the form, good or with up to three things wrong.
pub fn spoiled(rng: &mut Rng, form: &Form, mut text: Vec<u8>) -> Vec<u8> {
    for _ in 0..rng.pick(&[0, 1, 1, 1, 1, 2, 3]) {
        text = match rng.range(0, 9) {
            0..=3 => spoil_byte(rng, text),
            4 | 5 => spoil_number(rng, text),
            6 | 7 => spoil_line(rng, text),
            8 => text[..rng.index(text.len() + 1)].to_vec(),
            _ => spoil_whole(rng, form, text),
        };
    }
    text.truncate(ROOM);
    text
}

/// Where a fault is put: anywhere, near the end, or at the end of a line.
fn place(rng: &mut Rng, text: &[u8]) -> usize {
    let ends: Vec<usize> = (0..text.len()).filter(|&i| text[i] == b'\r' || text[i] == b'\n').collect();
    match rng.range(0, 3) {
        0 if !ends.is_empty() => rng.pick(&ends),
        1 => text.len() - 1 - rng.index(text.len().min(4)),
        _ => rng.index(text.len()),
    }
}

const BYTES: &[u8] = b"0123456789,,,,\r\r\n\n-+ \t\"'.;DTCArc\x00\x7f\x80\xef\xff";

fn spoil_byte(rng: &mut Rng, mut text: Vec<u8>) -> Vec<u8> {
    if text.is_empty() {
        return vec![rng.pick(BYTES)];
    }
    let at = place(rng, &text);
    match rng.range(0, 4) {
        0 => text[at] = rng.pick(BYTES),
        1 => text[at] ^= 1 << rng.range(0, 7),
        2 => {
            text.remove(at);
        }
        3 => text.insert(at, rng.pick(BYTES)),
        _ => {
            let other = (at + 1).min(text.len() - 1);
            text.swap(at, other);
        }
    }
    text
}

const NUMBERS: [&str; 26] = [
    "0",
    "00",
    "01",
    "007",
    "1",
    "10",
    "4294967294",
    "4294967295",
    "4294967296",
    "4294967300",
    "4300000000",
    "5000000000",
    "9999999999",
    "42949672950",
    "10000000000",
    "18446744073709551616",
    "99999999999999999999999",
    "-1",
    "-0",
    "+1",
    "",
    " 1",
    "1 ",
    "1.0",
    "\"1\"",
    "0x1",
];

/// Puts another number in the place of one.
fn spoil_number(rng: &mut Rng, text: Vec<u8>) -> Vec<u8> {
    let starts: Vec<usize> = (1..text.len())
        .filter(|&i| text[i].is_ascii_digit() && (text[i - 1] == b',' || text[i - 1] == b'\n'))
        .collect();
    if starts.is_empty() {
        return [&text[..], b"1"].concat();
    }
    let start = rng.pick(&starts);
    let end = (start..text.len()).find(|&i| !text[i].is_ascii_digit()).unwrap_or(text.len());
    [&text[..start], rng.pick(&NUMBERS).as_bytes(), &text[end..]].concat()
}

/// Takes a line away, doubles it, adds or drops a column, empties it or changes its end.
fn spoil_line(rng: &mut Rng, text: Vec<u8>) -> Vec<u8> {
    let mut lines: Vec<Vec<u8>> = text.split_inclusive(|&b| b == b'\n').map(<[u8]>::to_vec).collect();
    if lines.is_empty() {
        return b"\r\n".to_vec();
    }
    let at = rng.index(lines.len());
    let at = rng.pick(&[at, lines.len() - 1]);
    let line = lines[at].clone();
    let body = line.strip_suffix(b"\r\n").unwrap_or(&line).to_vec();
    match rng.range(0, 7) {
        0 => {
            lines.remove(at);
        }
        1 => lines.insert(at, line),
        2 => lines[at] = [&body[..], b",1\r\n"].concat(),
        3 => {
            let shorter = body.iter().rposition(|&b| b == b',').unwrap_or(0);
            lines[at] = [&body[..shorter], b"\r\n"].concat();
        }
        4 => lines[at] = b"\r\n".to_vec(),
        5 => {
            lines[at] =
                [&body[..], rng.pick(&["\n", "\r", "\n\r", "\r\r\n", "\r\n\r\n", "", " \r\n", ",\r\n"]).as_bytes()]
                    .concat()
        }
        6 => lines.insert(at, b"\r\n".to_vec()),
        _ => lines[at] = [b",", &body[..], b"\r\n"].concat(),
    }
    lines.concat()
}

fn spoil_whole(rng: &mut Rng, form: &Form, text: Vec<u8>) -> Vec<u8> {
    match rng.range(1, 7) {
        1 => vec![],
        2 => text.iter().copied().filter(|&b| b != b'\r').collect(),
        3 => [b"\xef\xbb\xbf", &text[..]].concat(),
        4 => text.iter().map(u8::to_ascii_uppercase).collect(),
        5 => [&text[..], &text[..]].concat(),
        6 => write(rng.pick(&[&PLATFORM, &TASKS, &TICKS]), &[]),
        _ => [form.header.as_bytes(), rng.pick(&["", "\r", "\r\n", "\n", ",\r\n", " \r\n"]).as_bytes()].concat(),
    }
}

#[cfg(test)]
mod tests {
    use super::*;
    use crate::texts::good;

    #[test]
    fn long_texts_are_good_and_as_long_as_meant() {
        let mut rng = Rng::new(9);
        for form in [&TASKS, &TICKS] {
            for _ in 0..5 {
                let text = long(&mut rng, form);
                assert!(good(form, &text).is_some());
                assert!((LONGEST - 1..=LONGEST + 1).contains(&text.len()), "{}", text.len());
            }
        }
    }
}
