//! A rehearsal tick by tick, for its chart: the reports that it makes, and what the proved program `ticks` has to
//! answer to them. Nothing foreseen here is shown: it is held against what `ticks` answers and `rehearse` lists.

use crate::listing::{tasks_of, Rehearsed, Tick};
use crate::place::{self, PLATFORM, REPORTS, TASKS};
use crate::unit::{Unit, LONGEST};
use crate::words::grouped;
use crate::words::ticks::Report;

#[derive(Debug, Clone, Copy, PartialEq, Eq)]
pub struct Task {
    pub deadline: u32,
    pub period: u32,
    pub run: u32,
    pub partitions: u32,
}

/// A unit's texts as numbers.
#[derive(Debug, Clone, PartialEq, Eq)]
pub struct Table {
    pub cores: u32,
    pub partitions: u32,
    pub tasks: Vec<Task>,
}

impl Table {
    pub fn of_unit(unit: &Unit) -> Option<Table> {
        let platform = place::rows(&PLATFORM, unit.platform.given())?;
        let [cores, partitions] = platform.first()?.1[..] else { return None };
        let task = |(_, row): &(usize, Vec<u32>)| match row[..] {
            [deadline, period, run, partitions] => Some(Task { deadline, period, run, partitions }),
            _ => None,
        };
        let tasks = place::rows(&TASKS, unit.tasks.given())?.iter().map(task).collect::<Option<_>>()?;
        Some(Table { cores, partitions, tasks })
    }

    /// Where the rehearsal with this listing ended. Without a late job that is the common multiple: each task started a
    /// job in each of its periods; it is the least one where nothing above 1 divides all these starts. `None`: this
    /// listing is not of this table.
    pub fn end(&self, rows: &[Rehearsed]) -> Option<End> {
        if rows.len() != self.tasks.len() || self.tasks.iter().any(|task| task.period == 0) {
            return None;
        }
        if let Some(row) = rows.iter().find(|row| row.late != 0) {
            return Some(End { tick: row.late, late: Some(row.task) });
        }
        let lengths = self.tasks.iter().zip(rows).map(|(task, row)| task.period.checked_mul(row.started));
        let lengths: Vec<u32> = lengths.collect::<Option<_>>()?;
        let tick = *lengths.first()?;
        let is_least = rows.iter().fold(0, |divisor, row| gcd(divisor, row.started)) == 1;
        (is_least && lengths.iter().all(|&length| length == tick)).then_some(End { tick, late: None })
    }
}

fn gcd(a: u32, b: u32) -> u32 {
    match b {
        0 => a,
        _ => gcd(b, a % b),
    }
}

/// The last tick of a rehearsal, and the lowest task that is late in it.
#[derive(Debug, Clone, Copy, PartialEq, Eq)]
pub struct End {
    pub tick: u32,
    pub late: Option<usize>,
}

#[derive(Clone, Copy)]
enum Stage {
    Idle,
    Waiting { released: u32 },
    Running { released: u32, started: u32 },
}

struct Machine<'a> {
    table: &'a Table,
    stages: Vec<Stage>,
}

impl Machine<'_> {
    fn set(&self, belongs: impl Fn(&Task, Stage) -> bool) -> u32 {
        let tasks = self.table.tasks.iter().zip(&self.stages).enumerate();
        tasks.filter(|(_, (task, stage))| belongs(task, **stage)).map(|(at, _)| 1 << at).sum()
    }

    fn enter(&mut self, set: u32, stage: impl Fn(Stage) -> Stage) {
        for task in tasks_of(set) {
            self.stages[task - 1] = stage(self.stages[task - 1]);
        }
    }

    /// One tick, which finishes each job that has run its C; nothing is released at the end.
    fn tick(&mut self, at: u32, is_end: bool) -> (Report, Tick) {
        let full = |task: &Task, stage| matches!(stage, Stage::Running { started, .. } if at - started == task.run);
        let finished = self.set(full);
        self.enter(finished, |_| Stage::Idle);
        let late = self.set(|task, stage| match stage {
            Stage::Idle => false,
            Stage::Waiting { released } | Stage::Running { released, .. } => at - released == task.deadline,
        });
        let released = self.set(|task, _| !is_end && at.is_multiple_of(task.period));
        self.enter(released, |_| Stage::Waiting { released: at });
        let started = self.start(at);
        ((released, finished), Tick { tick: at as usize, refused: 0, finished, late, started })
    }

    /// In the order of the numbers, until the first that waits does not fit.
    fn start(&mut self, at: u32) -> u32 {
        let running = |task: &Task, stage| matches!(stage, Stage::Running { .. }).then_some(u64::from(task.partitions));
        let held = self.table.tasks.iter().zip(&self.stages).filter_map(|(task, &stage)| running(task, stage));
        let (mut cores, mut partitions) = held.fold((0, 0u64), |(cores, sum), own| (cores + 1, sum + own));
        let mut set = 0;
        for task in tasks_of(self.set(|_, stage| matches!(stage, Stage::Waiting { .. }))) {
            let wanted = u64::from(self.table.tasks[task - 1].partitions);
            if cores == self.table.cores || partitions + wanted > u64::from(self.table.partitions) {
                break;
            }
            (cores, partitions) = (cores + 1, partitions + wanted);
            set |= 1 << (task - 1);
        }
        self.enter(set, |stage| match stage {
            Stage::Waiting { released } => Stage::Running { released, started: at },
            other => other,
        });
        set
    }
}

/// As many ticks as a ticks text has room for, from tick 0 on.
pub struct Foreseen {
    pub reports: Vec<Report>,
    pub ticks: Vec<Tick>,
    pub text: String,
}

impl Foreseen {
    pub fn new(table: &Table, end: End) -> Foreseen {
        let mut machine = Machine { table, stages: vec![Stage::Idle; table.tasks.len()] };
        let text = format!("{}\r\n", REPORTS.header);
        let mut foreseen = Foreseen { reports: Vec::new(), ticks: Vec::new(), text };
        for at in 0..=end.tick {
            let (report, tick) = machine.tick(at, at == end.tick);
            let row = format!("{},{}\r\n", report.0, report.1);
            if foreseen.text.len() + row.len() > LONGEST {
                break;
            }
            foreseen.text += &row;
            foreseen.reports.push(report);
            foreseen.ticks.push(tick);
        }
        foreseen
    }

    /// Why the answers of `ticks` and the listing of `rehearse` are not of one rehearsal; `None` where they are.
    pub fn difference(&self, answered: &[Tick], rows: &[Rehearsed], end: End) -> Option<String> {
        let differs = |&at: &usize| self.ticks.get(at) != answered.get(at);
        if let Some(at) = (0..self.ticks.len().max(answered.len())).find(differs) {
            let tick = grouped(at as u32);
            return Some(format!("at tick {tick} the program ticks answers otherwise than a rehearsal goes"));
        }
        let whole = answered.len() == end.tick as usize + 1;
        let ends_late = whole && end.late.is_some();
        let (before, last) = answered.split_at(answered.len() - usize::from(ends_late));
        let late = |row: &Tick| tasks_of(row.late).first().copied();
        if before.iter().any(|row| row.late != 0) || (ends_late && last.iter().find_map(late) != end.late) {
            return Some("the programs rehearse and ticks do not name the same late task and tick".into());
        }
        let starts = |task| before.iter().filter(|row| tasks_of(row.started).contains(&task)).count();
        let agrees = |row: &&Rehearsed| match whole {
            true => starts(row.task) == row.started as usize,
            false => starts(row.task) <= row.started as usize,
        };
        let other = rows.iter().find(|row| !agrees(row))?;
        Some(format!("the programs rehearse and ticks do not count the same starts of task {}", other.task))
    }
}

#[cfg(test)]
pub mod tests {
    use super::*;

    pub fn table(cores: u32, partitions: u32, rows: &[[u32; 4]]) -> Table {
        let task = |&[deadline, period, run, partitions]: &[u32; 4]| Task { deadline, period, run, partitions };
        Table { cores, partitions, tasks: rows.iter().map(task).collect() }
    }

    pub fn listing(started: &[u32], late: Option<(usize, u32)>) -> Vec<Rehearsed> {
        let row = |(at, &started): (usize, &u32)| {
            let late = late.filter(|(task, _)| *task == at + 1).map_or(0, |(_, tick)| tick);
            Rehearsed { task: at + 1, started, late }
        };
        started.iter().enumerate().map(row).collect()
    }

    const P8: [[u32; 4]; 4] = [[6, 6, 2, 1], [8, 8, 3, 2], [9, 9, 2, 2], [12, 12, 2, 1]];

    /// The worked cases of wish 1.
    #[test]
    fn worked_rehearsals() {
        let p1 = table(2, 4, &[[40, 50, 2, 1], [60, 60, 3, 2], [80, 100, 4, 2]]);
        let twice = |row| table(1, 1, &[row, row]);
        let four = table(1, 1, &[[1, 10, 1, 1], [3, 10, 1, 0], [2, 10, 2, 1], [2, 10, 1, 1]]);
        for (table, started, late) in [
            (p1, vec![6, 5, 3], None),
            (table(3, 4, &P8), vec![12, 9, 8, 6], None),
            (table(1, 4, &P8), vec![2, 2, 1, 0], Some((4, 12))),
            (table(3, 2, &P8), vec![4, 3, 3, 2], Some((4, 24))),
            (table(1, 1, &[[2, 4, 2, 1], [3, 4, 2, 1]]), vec![1, 1], Some((2, 3))),
            (table(1, 1, &[[3, 3, 3, 1], [1, 1, 1, 1]]), vec![1, 0], Some((2, 1))),
            (twice([3, 3, 2, 1]), vec![1, 1], Some((2, 3))),
            (twice([4, 4, 2, 1]), vec![1, 1], None),
            (four, vec![1, 1, 0, 0], Some((3, 2))),
        ] {
            let rows = listing(&started, late);
            let end = table.end(&rows).unwrap();
            let foreseen = Foreseen::new(&table, end);
            assert_eq!(foreseen.ticks.len(), end.tick as usize + 1);
            assert_eq!(foreseen.difference(&foreseen.ticks, &rows, end), None, "{table:?}");
        }
    }

    #[test]
    fn a_listing_of_another_table_has_no_end() {
        let p8 = table(3, 4, &P8);
        assert_eq!(p8.end(&listing(&[12, 9, 8, 6], None)), Some(End { tick: 72, late: None }));
        assert_eq!(p8.end(&listing(&[12, 9, 8, 5], None)), None);
        assert_eq!(p8.end(&listing(&[24, 18, 16, 12], None)), None, "not the least multiple");
        assert_eq!(p8.end(&listing(&[12, 9, 8], None)), None);
        assert_eq!(p8.end(&listing(&[0, 0, 0, 0], Some((2, 5)))), Some(End { tick: 5, late: Some(2) }));
    }

    #[test]
    fn what_is_not_one_rehearsal() {
        let p8 = table(1, 4, &P8);
        let rows = listing(&[2, 2, 1, 0], Some((4, 12)));
        let end = p8.end(&rows).unwrap();
        let foreseen = Foreseen::new(&p8, end);
        let difference = |answered: &[Tick], rows, end| foreseen.difference(answered, rows, end).unwrap();
        let mut other = foreseen.ticks.clone();
        other[5].started ^= 1;
        assert!(difference(&other, &rows, end).starts_with("at tick 5 "));
        assert!(difference(&foreseen.ticks[..12], &rows, end).starts_with("at tick 12 "));
        let starts = listing(&[2, 2, 2, 0], Some((4, 12)));
        assert!(difference(&foreseen.ticks, &starts, end).ends_with("starts of task 3"));
        let later = End { tick: 13, late: Some(4) };
        assert!(difference(&foreseen.ticks, &rows, later).contains("the same late task and tick"));
        let higher = End { tick: 12, late: Some(3) };
        assert!(difference(&foreseen.ticks, &rows, higher).contains("the same late task and tick"));
    }

    #[test]
    fn no_more_ticks_than_a_text_has_room_for() {
        let long = table(1, 1, &[[50_000, 50_000, 1, 1]]);
        let rows = listing(&[1], None);
        let end = long.end(&rows).unwrap();
        let foreseen = Foreseen::new(&long, end);
        assert_eq!((foreseen.ticks.len(), foreseen.text.len()), (11_996, 59_999));
        assert_eq!(foreseen.difference(&foreseen.ticks, &rows, end), None);
        let more = listing(&[0], None);
        assert!(foreseen.difference(&foreseen.ticks, &more, end).unwrap().ends_with("starts of task 1"));
    }
}
