//! The programs, and the quick verdict that C asks for.

use crate::admission::{full, interference, limit, margin, quick};
use crate::machine::Machine;
use crate::rehearsal;
use crate::table::{Refused, Row, Table};
use crate::texts::{read, Form, PLATFORM, TASKS, TICKS};

/// A program takes no text that is longer.
pub const LONGEST: usize = 60_000;

/// A text that a program has read, or not: the rows, or refusal 15.
fn taken(form: &Form, text: Option<&[u8]>) -> Result<Vec<Vec<u32>>, Refused> {
    match text {
        Some(text) if text.len() <= LONGEST => read(form, text),
        _ => Err(Refused { number: 15, at: 0 }),
    }
}

fn table(platform: &[Vec<u32>], tasks: &[Vec<u32>]) -> Table {
    let rows: Vec<Row> = tasks.iter().map(|row| Row { d: row[0], t: row[1], c: row[2], a: row[3] }).collect();
    Table { n: rows.len() as u64, m: platform[0][0], p: platform[0][1], rows }
}

fn lines(header: &str, rows: impl IntoIterator<Item = String>) -> Vec<u8> {
    let mut text = format!("{header}\r\n");
    for row in rows {
        text += &format!("{row}\r\n");
    }
    text.into_bytes()
}

fn refused(r: Refused) -> Vec<u8> {
    lines("refused,row", [format!("{},{}", r.number, r.at)])
}

/// What "admit" writes. `None` is a file that is missing.
pub fn admit(platform: Option<&[u8]>, tasks: Option<&[u8]>) -> Vec<u8> {
    let texts = taken(&PLATFORM, platform).and_then(|p| Ok((p, taken(&TASKS, tasks)?)));
    let answer = match texts {
        Ok((platform, tasks)) => full(&table(&platform, &tasks)),
        Err(r) => return refused(r),
    };
    if let Some(r) = answer.refused {
        return refused(r);
    }
    let rows = (1..).zip(&answer.margins).map(|(k, margin)| format!("{k},{margin},{}", u32::from(*margin > 0)));
    lines("task,margin,pass", rows)
}

/// The table of both texts, or the refusal of the first that is not good.
fn given(platform: Option<&[u8]>, tasks: Option<&[u8]>) -> Result<Table, Refused> {
    let platform = taken(&PLATFORM, platform)?;
    let table = table(&platform, &taken(&TASKS, tasks)?);
    table.refused().map_or(Ok(table), Err)
}

/// The table in which task i never runs: its slack and its partitions are as before.
fn without(table: &Table, i: usize) -> Table {
    let mut idle = table.clone();
    let row = &mut idle.rows[i - 1];
    row.d -= row.c;
    row.c = 0;
    idle
}

/// What "explain" writes. A share is what the margin of k would gain if i never ran, and a weight is how often the
/// interference goes into it.
pub fn explain(platform: Option<&[u8]>, tasks: Option<&[u8]>) -> Vec<u8> {
    let table = match given(platform, tasks) {
        Ok(table) => table,
        Err(r) => return refused(r),
    };
    let mut rows = vec![];
    for k in 1..=table.tasks().len() {
        let (task, margin_of_k) = (table.tasks()[k - 1], margin(&table, k));
        for (i, other) in (1..).zip(table.tasks()) {
            let taken = interference(i128::from(task.d) - i128::from(task.c), other);
            let share = margin(&without(&table, i), k) - margin_of_k;
            assert_eq!(share % taken, 0, "a share is a whole number of times the interference");
            rows.push(format!("{k},{i},{taken},{},{share}", share / taken));
        }
    }
    lines("task,other,interference,weight,share", rows)
}

/// What "rehearse" writes: how many jobs each task started, and the tick at which some job was late in the row of the
/// lowest such task.
pub fn rehearse(platform: Option<&[u8]>, tasks: Option<&[u8]>) -> Vec<u8> {
    let shown = match given(platform, tasks).and_then(|table| rehearsal::run(&table)) {
        Ok(shown) => shown,
        Err(r) => return refused(r),
    };
    let late = |k| if k == shown.task() { shown.tick } else { 0 };
    lines("task,started,late", (1..).zip(&shown.started).map(|(k, started)| format!("{k},{started},{}", late(k))))
}

/// The rows of a listing, as numbers.
pub fn rows_of(listing: &[u8]) -> Vec<Vec<i128>> {
    let text = std::str::from_utf8(listing).expect("a listing is ASCII");
    text.lines().skip(1).map(|row| row.split(',').map(|x| x.parse().expect("a number")).collect()).collect()
}

/// The number of the refusal that a program wrote, if it wrote one.
pub fn refused_by(text: &[u8]) -> Option<i128> {
    text.starts_with(b"refused,row\r\n").then(|| rows_of(text)[0][0])
}

/// Whether the two listings, read back, belong together: of each task the shares and the margin add up to its limit.
/// Two refusals have to be the same.
pub fn adds_up(platform: Option<&[u8]>, tasks: Option<&[u8]>, admits: &[u8], explains: &[u8]) -> bool {
    let Ok(table) = given(platform, tasks) else {
        return admits == explains;
    };
    let (margins, pairs) = (rows_of(admits), rows_of(explains));
    pairs.len() == margins.len() * margins.len()
        && margins.iter().all(|row| {
            let shares: i128 = pairs.iter().filter(|pair| pair[0] == row[0]).map(|pair| pair[4]).sum();
            shares + row[1] == limit(&table, row[0] as usize)
        })
}

/// What "ticks" writes.
pub fn ticks(platform: Option<&[u8]>, tasks: Option<&[u8]>, reports: &[u8]) -> Vec<u8> {
    let texts = || {
        let platform = taken(&PLATFORM, platform)?;
        let tasks = taken(&TASKS, tasks)?;
        let reports = taken(&TICKS, Some(reports))?;
        Ok((Machine::fresh(&table(&platform, &tasks))?, reports))
    };
    let (mut machine, reports) = match texts() {
        Ok(all) => all,
        Err(r) => return refused(r),
    };
    let mut before = 0;
    let mut rows = vec![];
    for report in reports {
        match machine.tick(report[0], report[1]) {
            Ok((next, sets)) => {
                rows.push(format!("{before},0,{},{},{}", sets.finished, sets.late, sets.started));
                machine = next;
                before += 1;
            }
            Err(r) => rows.push(format!("{before},{},0,0,0", r.number)),
        }
    }
    lines("tick,refused,finished,late,started", rows)
}

/// Set-up from two texts: the fresh machine, or the refusal and the text that it is in, 1 the platform, 2 the tasks, 0
/// neither.
pub fn set_up(platform: &[u8], tasks: &[u8]) -> Result<Machine, (Refused, u32)> {
    let platform = read(&PLATFORM, platform).map_err(|r| (r, 1))?;
    let tasks = read(&TASKS, tasks).map_err(|r| (r, 2))?;
    Machine::fresh(&table(&platform, &tasks)).map_err(|r| (r, 0))
}

/// What the board's start-up code gets for the bytes of two texts.
pub fn verdict(platform: &[u8], tasks: &[u8]) -> u32 {
    let texts = read(&PLATFORM, platform).and_then(|p| Ok((p, read(&TASKS, tasks)?)));
    let answer = match texts {
        Ok((platform, tasks)) => quick(&table(&platform, &tasks)),
        Err(r) => return r.number,
    };
    match answer.refused {
        Some(r) => r.number,
        None if answer.admitted => 0,
        None => 100 + answer.first as u32,
    }
}

#[cfg(test)]
mod tests {
    use super::*;
    use crate::texts::write;

    fn platform(m: u32, p: u32) -> Vec<u8> {
        write(&PLATFORM, &[vec![m, p]])
    }

    fn tasks(rows: &[[u32; 4]]) -> Vec<u8> {
        write(&TASKS, &rows.iter().map(|row| row.to_vec()).collect::<Vec<_>>())
    }

    fn admit_says(p: &[u8], t: &[u8]) -> String {
        String::from_utf8(admit(Some(p), Some(t))).unwrap()
    }

    const P1: [[u32; 4]; 3] = [[40, 50, 2, 1], [60, 60, 3, 2], [80, 100, 4, 2]];
    const P8: [[u32; 4]; 4] = [[6, 6, 2, 1], [8, 8, 3, 2], [9, 9, 2, 2], [12, 12, 2, 1]];

    #[test]
    fn p1_to_p6() {
        let listing = "task,margin,pass\r\n1,232,1\r\n2,268,1\r\n3,370,1\r\n";
        assert_eq!(admit_says(&platform(2, 4), &tasks(&P1)), listing);
        for (row, says, number) in [
            ([6, 6, 2, 1], "1,0,0", 101),
            ([7, 7, 2, 1], "1,1,1", 0),
            ([5, 5, 2, 1], "1,-1,0", 101),
            ([2, 2, 2, 1], "1,-4,0", 101),
            ([6, 6, 2, 0], "1,0,0", 101),
        ] {
            let listing = format!("task,margin,pass\r\n{says}\r\n");
            assert_eq!(admit_says(&platform(1, 1), &tasks(&[row])), listing);
            assert_eq!(verdict(&platform(1, 1), &tasks(&[row])), number);
        }
    }

    const PAIRS: &str = "1,1,4,4,16\r\n1,2,6,4,24\r\n1,3,8,4,32\r\n2,1,6,3,18\r\n2,2,6,4,24\r\n2,3,8,4,32\r\n\
                         3,1,6,3,18\r\n3,2,9,4,36\r\n3,3,8,4,32\r\n";

    #[test]
    fn explain_p1_and_what_it_adds_up_to() {
        let (two, t) = (platform(2, 4), tasks(&P1));
        let (admits, explains) = (admit(Some(&two), Some(&t)), explain(Some(&two), Some(&t)));
        assert_eq!(String::from_utf8_lossy(&explains), format!("task,other,interference,weight,share\r\n{PAIRS}"));
        assert!(adds_up(Some(&two), Some(&t), &admits, &explains));
        let spoiled = [&explains[..explains.len() - 3], b"3\r\n"].concat();
        assert!(!adds_up(Some(&two), Some(&t), &admits, &spoiled));
        let short = &explains[..explains.len() - "3,3,8,4,32\r\n".len()];
        assert!(!adds_up(Some(&two), Some(&t), &admits, short));
    }

    #[test]
    fn explain_refuses_what_admit_refuses() {
        let (two, t) = (platform(2, 4), tasks(&P1));
        let texts: [[Option<&[u8]>; 2]; 4] =
            [[None, Some(&t)], [Some(&two), None], [Some(b"cores"), Some(b"x")], [Some(&two), Some(b"")]];
        for [p, t] in texts {
            assert_eq!(explain(p, t), admit(p, t));
            assert!(adds_up(p, t, &admit(p, t), &explain(p, t)));
        }
        assert_eq!(explain(Some(&platform(2, 1)), Some(&t)), b"refused,row\r\n8,2\r\n");
        assert!(!adds_up(None, Some(&t), b"refused,row\r\n15,0\r\n", b"refused,row\r\n15,1\r\n"));
    }

    /// M x A is larger than B here: with M = 4, P = 4 and A = 2 the weight is 8 and B is 3.
    #[test]
    fn explain_weighs_partitions() {
        let listing = explain(Some(&platform(4, 4)), Some(&tasks(&[[9, 10, 2, 2], [20, 20, 3, 0]])));
        let rows = "1,1,4,8,32\r\n1,2,6,3,18\r\n2,1,6,8,48\r\n2,2,6,3,18\r\n";
        assert_eq!(String::from_utf8(listing).unwrap(), format!("task,other,interference,weight,share\r\n{rows}"));
    }

    #[test]
    fn rehearse_p1_p8_and_refusals() {
        let says =
            |m, p, rows: &[[u32; 4]]| String::from_utf8(rehearse(Some(&platform(m, p)), Some(&tasks(rows)))).unwrap();
        assert_eq!(says(2, 4, &P1), "task,started,late\r\n1,6,0\r\n2,5,0\r\n3,3,0\r\n");
        assert_eq!(says(1, 4, &P8), "task,started,late\r\n1,2,0\r\n2,2,0\r\n3,1,0\r\n4,0,12\r\n");
        assert_eq!(says(1, 1, &[[1_000, 1_000, 1, 1], [1_001, 1_001, 1, 1]]), "refused,row\r\n17,0\r\n");
        assert_eq!(says(1, 1, &[[1_000, 1_000, 1, 1], [1_001, 1_001, 1, 2]]), "refused,row\r\n8,2\r\n");
        assert_eq!(says(1, 1, &[]), "refused,row\r\n1,0\r\n");
        assert_eq!(rehearse(Some(b"cores"), Some(b"x")), b"refused,row\r\n15,5\r\n");
        assert_eq!(rehearse(Some(&platform(0, 0)), None), b"refused,row\r\n15,0\r\n");
    }

    #[test]
    fn p8() {
        let reports = [[15, 0], [0, 0], [0, 1], [0, 2], [0, 4], [1, 8], [0, 8], [1, 0]].map(|r| r.to_vec());
        let listing = ticks(Some(&platform(3, 4)), Some(&tasks(&P8)), &write(&TICKS, &reports));
        let expected = "tick,refused,finished,late,started\r\n0,0,0,0,3\r\n1,0,0,0,0\r\n2,0,1,0,4\r\n3,0,2,0,8\r\n\
                        4,0,4,0,0\r\n5,12,0,0,0\r\n5,0,8,0,0\r\n6,0,0,0,1\r\n";
        assert_eq!(String::from_utf8(listing).unwrap(), expected);
    }

    #[test]
    fn refused_texts_and_tables() {
        let good = tasks(&P1);
        assert_eq!(admit_says(b"", b""), "refused,row\r\n15,0\r\n");
        assert_eq!(admit_says(&platform(2, 4), b""), "refused,row\r\n15,0\r\n");
        assert_eq!(admit_says(&platform(2, 4), b"D,T,C,A\r\n"), "refused,row\r\n1,0\r\n");
        assert_eq!(admit_says(&platform(2, 1), &good), "refused,row\r\n8,2\r\n");
        // the platform's form first, then the tasks', and only then numbers
        assert_eq!(admit_says(b"cores", b"x"), "refused,row\r\n15,5\r\n");
        assert_eq!(admit_says(&platform(0, 0), b"D,x"), "refused,row\r\n15,2\r\n");
        assert_eq!(admit(None, Some(&good)), admit(Some(&platform(2, 4)), None));
        let listing = ticks(Some(&platform(0, 0)), Some(&good), b"released,finished\r\n1");
        assert_eq!(listing, b"refused,row\r\n15,20\r\n");
        let listing = ticks(Some(&platform(0, 0)), Some(&good), b"released,finished\r\n");
        assert_eq!(listing, b"refused,row\r\n2,0\r\n");
        let listing = ticks(Some(&platform(2, 4)), Some(&good), b"released,finished\r\n");
        assert_eq!(listing, b"tick,refused,finished,late,started\r\n");
    }

    #[test]
    fn set_up_says_which_text() {
        let good = tasks(&P1);
        let refused = |p: &[u8], t: &[u8]| set_up(p, t).err().map(|(r, text)| (r.number, r.at, text));
        assert_eq!(refused(b"cores", b""), Some((15, 5, 1)));
        assert_eq!(refused(&platform(0, 0), b"D,x"), Some((15, 2, 2)));
        assert_eq!(refused(&platform(0, 0), &good), Some((2, 0, 0)));
        assert_eq!(refused(&platform(2, 1), &good), Some((8, 2, 0)));
        assert_eq!(refused(&platform(2, 4), &good), None);
        assert_eq!(set_up(&platform(2, 4), &good).unwrap().table.m, 2);
    }

    #[test]
    fn sixty_thousand_bytes() {
        // a header of 9 bytes and 6,665 rows of 9 are 59,994 bytes
        let mut rows = vec![[1, 2, 3, 4]; 6665];
        rows[0][3] = 4_444_444;
        let long = tasks(&rows);
        assert_eq!(long.len(), LONGEST);
        assert_eq!(admit_says(&platform(2, 4), &long), "refused,row\r\n1,0\r\n");
        let longer = [&long[..], b"1"].concat();
        assert_eq!(admit_says(&platform(2, 4), &longer), "refused,row\r\n15,0\r\n");
        assert_eq!(verdict(&platform(2, 4), &longer), 15);
        assert_eq!(verdict(&platform(2, 4), &[&long[..], b"1,1,1,1\r\n"].concat()), 1);
    }

    #[test]
    fn thirty_two_and_thirty_three_tasks() {
        let rows = vec![[65_535, 65_535, 1, 0]; 33];
        assert_eq!(verdict(&platform(1, 1), &tasks(&rows[..32])), 0);
        assert_eq!(verdict(&platform(1, 1), &tasks(&rows)), 1);
    }
}
