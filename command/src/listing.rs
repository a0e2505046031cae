//! What the proved programs write, taken apart. A text that is none of their listings is `None`: no answer is read
//! into it.

#[derive(Debug, Clone, Copy, PartialEq, Eq)]
pub struct Refused {
    pub number: u32,
    /// The row, task or place, as the listing has it.
    pub row: usize,
}

#[derive(Debug, Clone, Copy, PartialEq, Eq)]
pub struct Margin {
    pub task: usize,
    pub margin: i64,
    pub passes: bool,
}

#[derive(Debug, Clone, Copy, PartialEq, Eq)]
pub struct Tick {
    /// The ticks taken before this row.
    pub tick: usize,
    pub refused: u32,
    pub finished: u32,
    pub late: u32,
    pub started: u32,
}

#[derive(Debug, Clone, Copy, PartialEq, Eq)]
pub struct Share {
    pub task: usize,
    pub other: usize,
    pub share: u64,
}

#[derive(Debug, Clone, Copy, PartialEq, Eq)]
pub struct Rehearsed {
    pub task: usize,
    /// The jobs that it started before the rehearsal ended.
    pub started: u32,
    /// The tick at which it was late, if it is the lowest such task; else 0.
    pub late: u32,
}

#[derive(Debug, Clone, PartialEq, Eq)]
pub enum Listing<Row> {
    Refused(Refused),
    Rows(Vec<Row>),
}

const MOST_TASKS: usize = 32;

/// The last tick that a rehearsal may come to.
const MOST_TICKS: u32 = 1_000_000;

/// The numbers of document 01, and the one that `rehearse` alone gives.
const LAST_REFUSAL: u32 = 16;
const NO_SMALL_MULTIPLE: u32 = 17;

/// What `admit` writes: a row for each task, in order, at least one.
pub fn margins(bytes: &[u8]) -> Option<Listing<Margin>> {
    let rows = match listing(bytes, "task,margin,pass")? {
        Listing::Refused(refused) => return Some(Listing::Refused(refused)),
        Listing::Rows(rows) => rows,
    };
    let margin = |(at, row): (usize, &Vec<&str>)| {
        let [task, margin, pass] = row[..] else { return None };
        let margin = signed(margin)?;
        let agrees = number(task)? == at as u64 + 1 && pass == if margin > 0 { "1" } else { "0" };
        agrees.then_some(Margin { task: at + 1, margin, passes: margin > 0 })
    };
    let rows: Vec<Margin> = rows.iter().enumerate().map(margin).collect::<Option<_>>()?;
    (1..=MOST_TASKS).contains(&rows.len()).then_some(Listing::Rows(rows))
}

/// What `ticks` writes: a row for each row of the ticks text; the first column counts the rows that were taken.
pub fn ticks(bytes: &[u8]) -> Option<Listing<Tick>> {
    let rows = match listing(bytes, "tick,refused,finished,late,started")? {
        Listing::Refused(refused) => return Some(Listing::Refused(refused)),
        Listing::Rows(rows) => rows,
    };
    let mut taken = 0;
    let mut ticks = Vec::new();
    for row in rows {
        let [tick, refused, finished, late, started] = row[..] else {
            return None;
        };
        if number(tick)? != taken as u64 {
            return None;
        }
        let refused = small(refused)?;
        let (finished, late, started) = (small(finished)?, small(late)?, small(started)?);
        ticks.push(Tick { tick: taken, refused, finished, late, started });
        match refused {
            0 => taken += 1,
            9..=14 if finished | late | started == 0 => {}
            _ => return None,
        }
    }
    Some(Listing::Rows(ticks))
}

/// What `explain` writes: a row for each pair of tasks, the first one outer.
pub fn shares(bytes: &[u8]) -> Option<Listing<Share>> {
    let rows = match listing(bytes, "task,other,interference,weight,share")? {
        Listing::Refused(refused) => return Some(Listing::Refused(refused)),
        Listing::Rows(rows) => rows,
    };
    let tasks = (1..=MOST_TASKS).find(|n| n * n == rows.len())?;
    let share = |(at, row): (usize, &Vec<&str>)| {
        let [task, other, interference, weight, share] = row[..] else {
            return None;
        };
        let of = Share { task: at / tasks + 1, other: at % tasks + 1, share: number(share)? };
        let agrees = number(task)? == of.task as u64 && number(other)? == of.other as u64;
        // That a share is interference times weight is the program's theorem, and not asked again here.
        (agrees && number(interference).and(number(weight)).is_some()).then_some(of)
    };
    Some(Listing::Rows(rows.iter().enumerate().map(share).collect::<Option<_>>()?))
}

/// What `rehearse` writes: a row for each task, in order, at least one, and a late tick in one row at most.
pub fn rehearsal(bytes: &[u8]) -> Option<Listing<Rehearsed>> {
    let rows = match listing_to(bytes, "task,started,late", NO_SMALL_MULTIPLE)? {
        Listing::Refused(refused) => {
            let agrees = refused.number != NO_SMALL_MULTIPLE || refused.row == 0;
            return agrees.then_some(Listing::Refused(refused));
        }
        Listing::Rows(rows) => rows,
    };
    let rehearsed = |(at, row): (usize, &Vec<&str>)| {
        let [task, started, late] = row[..] else { return None };
        let (started, late) = (small(started)?, small(late)?);
        let agrees = number(task)? == at as u64 + 1 && started <= MOST_TICKS && late <= MOST_TICKS;
        agrees.then_some(Rehearsed { task: at + 1, started, late })
    };
    let rows: Vec<Rehearsed> = rows.iter().enumerate().map(rehearsed).collect::<Option<_>>()?;
    let late = rows.iter().filter(|row| row.late != 0).count();
    ((1..=MOST_TASKS).contains(&rows.len()) && late <= 1).then_some(Listing::Rows(rows))
}

/// The rows under the header, or the refusal.
fn listing<'a>(bytes: &'a [u8], header: &str) -> Option<Listing<Vec<&'a str>>> {
    listing_to(bytes, header, LAST_REFUSAL)
}

/// The same, of a program whose refusals go up to this number.
fn listing_to<'a>(bytes: &'a [u8], header: &str, last_refusal: u32) -> Option<Listing<Vec<&'a str>>> {
    let text = std::str::from_utf8(bytes).ok()?.strip_suffix("\r\n")?;
    let mut lines = text.split("\r\n");
    let first = lines.next()?;
    let rows: Vec<Vec<&str>> = lines.map(|line| line.split(',').collect()).collect();
    if first == header {
        return Some(Listing::Rows(rows));
    }
    match (first, &rows[..]) {
        ("refused,row", [row]) => refusal(row, last_refusal).map(Listing::Refused),
        _ => None,
    }
}

fn refusal(row: &[&str], last: u32) -> Option<Refused> {
    let [refused, row] = row else { return None };
    let number = small(refused)?;
    let row = usize::try_from(self::number(row)?).ok()?;
    (1..=last).contains(&number).then_some(Refused { number, row })
}

fn number(word: &str) -> Option<u64> {
    let plain = word.bytes().all(|b| b.is_ascii_digit()) && (word == "0" || !word.starts_with('0'));
    word.parse().ok().filter(|_| plain)
}

fn small(word: &str) -> Option<u32> {
    number(word)?.try_into().ok()
}

fn signed(word: &str) -> Option<i64> {
    match word.strip_prefix('-') {
        Some("0") => None,
        Some(digits) => Some(-i64::try_from(number(digits)?).ok()?),
        None => number(word)?.try_into().ok(),
    }
}

/// The tasks of a set, lowest first: task k adds 2^(k−1).
pub fn tasks_of(set: u32) -> Vec<usize> {
    (0..u32::BITS).filter(|bit| set >> bit & 1 == 1).map(|bit| bit as usize + 1).collect()
}

#[cfg(test)]
mod tests {
    use super::*;

    #[test]
    fn admit_listings() {
        let rows = vec![
            Margin { task: 1, margin: 232, passes: true },
            Margin { task: 2, margin: 0, passes: false },
            Margin { task: 3, margin: -4, passes: false },
        ];
        assert_eq!(margins(b"task,margin,pass\r\n1,232,1\r\n2,0,0\r\n3,-4,0\r\n"), Some(Listing::Rows(rows)));
        let refused = Listing::Refused(Refused { number: 15, row: 59999 });
        assert_eq!(margins(b"refused,row\r\n15,59999\r\n"), Some(refused));
    }

    #[test]
    fn what_is_no_admit_listing() {
        let no: [&[u8]; 18] = [
            b"",
            b"\r\n",
            b"task,margin,pass",
            b"task,margin,pass\r\n",
            b"task,margin,pass\r\n1,232,1",
            b"task,margin,pass\r\n1,232,1\n",
            b"task,margin,pass\r\n1,232,1\r\n\r\n",
            b"task,margin,pass\r\n1,232,0\r\n",
            b"task,margin,pass\r\n1,0,1\r\n",
            b"task,margin,pass\r\n1,-0,0\r\n",
            b"task,margin,pass\r\n1,+1,1\r\n",
            b"task,margin,pass\r\n1,01,1\r\n",
            b"task,margin,pass\r\n2,232,1\r\n",
            b"task,margin,pass\r\n1,232,1,1\r\n",
            b"refused,row\r\n",
            b"refused,row\r\n0,0\r\n",
            b"refused,row\r\n17,0\r\n",
            b"refused,row\r\n15,0\r\n15,0\r\n",
        ];
        for bytes in no {
            assert_eq!(margins(bytes), None, "{}", String::from_utf8_lossy(bytes));
        }
        let full: String = (1..=33).map(|k| format!("{k},1,1\r\n")).collect();
        assert_eq!(margins(format!("task,margin,pass\r\n{full}").as_bytes()), None);
        assert_eq!(margins(b"\xFFtask,margin,pass\r\n1,232,1\r\n"), None);
    }

    #[test]
    fn ticks_listings() {
        let header = "tick,refused,finished,late,started\r\n";
        let of = |rows: &str| ticks(format!("{header}{rows}").as_bytes());
        assert_eq!(of(""), Some(Listing::Rows(vec![])));
        let taken = Tick { tick: 0, refused: 0, finished: 0, late: 4, started: 3 };
        let refused = Tick { tick: 1, refused: 12, finished: 0, late: 0, started: 0 };
        let next = Tick { tick: 1, refused: 0, finished: 8, late: 0, started: 4294967295 };
        let rows = "0,0,0,4,3\r\n1,12,0,0,0\r\n1,0,8,0,4294967295\r\n";
        assert_eq!(of(rows), Some(Listing::Rows(vec![taken, refused, next])));
        for rows in
            ["1,0,0,0,0\r\n", "0,12,1,0,0\r\n", "0,5,0,0,0\r\n", "0,0,0,0\r\n", "0,0,0,0,4294967296\r\n", "\r\n"]
        {
            assert_eq!(of(rows), None, "{rows}");
        }
        assert_eq!(ticks(b"task,margin,pass\r\n1,232,1\r\n"), None);
    }

    #[test]
    fn explain_listings() {
        let header = "task,other,interference,weight,share\r\n";
        let of = |rows: &str| shares(format!("{header}{rows}").as_bytes());
        assert_eq!(of("1,1,4,4,16\r\n"), Some(Listing::Rows(vec![Share { task: 1, other: 1, share: 16 }])));
        let two = "1,1,4,4,16\r\n1,2,6,4,24\r\n2,1,4,3,12\r\n2,2,6,3,18\r\n";
        let wanted = [(1, 1, 16), (1, 2, 24), (2, 1, 12), (2, 2, 18)];
        let wanted = wanted.map(|(task, other, share)| Share { task, other, share });
        assert_eq!(of(two), Some(Listing::Rows(wanted.to_vec())));
        for rows in ["", "1,1,4,,16\r\n", "1,1,4,4,16\r\n1,2,6,4,24\r\n", "2,1,4,4,16\r\n", "1,2,4,4,16\r\n"] {
            assert_eq!(of(rows), None, "{rows}");
        }
    }

    #[test]
    fn rehearse_listings() {
        let of = |rows: &str| rehearsal(format!("task,started,late\r\n{rows}").as_bytes());
        let two = [Rehearsed { task: 1, started: 2, late: 0 }, Rehearsed { task: 2, started: 0, late: 12 }];
        assert_eq!(of("1,2,0\r\n2,0,12\r\n"), Some(Listing::Rows(two.to_vec())));
        assert!(of("1,1000000,1000000\r\n").is_some());
        for rows in ["", "2,1,0\r\n", "1,1\r\n", "1,1,0,0\r\n", "1,1,3\r\n2,1,3\r\n", "1,1,-3\r\n", "1,1000001,0\r\n"] {
            assert_eq!(of(rows), None, "{rows}");
        }
        assert_eq!(of("1,1,1000001\r\n"), None);
        assert_eq!(of(&(1..=33).map(|task| format!("{task},1,0\r\n")).collect::<String>()), None, "33 tasks");
        let multiple = Refused { number: 17, row: 0 };
        assert_eq!(rehearsal(b"refused,row\r\n17,0\r\n"), Some(Listing::Refused(multiple)));
        for bytes in ["refused,row\r\n17,1\r\n", "refused,row\r\n18,0\r\n", "task,margin,pass\r\n1,2,1\r\n"] {
            assert_eq!(rehearsal(bytes.as_bytes()), None, "{bytes}");
        }
        assert_eq!(margins(b"refused,row\r\n17,0\r\n"), None, "17 is the rehearsal's alone");
    }

    #[test]
    fn sets_as_task_numbers() {
        assert_eq!(tasks_of(0), vec![]);
        assert_eq!(tasks_of(8), vec![4]);
        assert_eq!(tasks_of(11), vec![1, 2, 4]);
        assert_eq!(tasks_of(u32::MAX), (1..=32).collect::<Vec<_>>());
    }
}
