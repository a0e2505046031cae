//! The machine: its state, the conditions of a state, a fresh one, and one tick of blocking FP_CA.

use crate::table::{Refused, Row, Table, ROWS};
use std::collections::BTreeSet;

#[derive(Clone, Copy, Debug, PartialEq, Eq, Hash)]
pub enum Stage {
    Idle,
    Waiting,
    Running,
}

/// What a task does. The partitions held are listed upwards.
#[derive(Clone, Debug, PartialEq, Eq, Hash)]
pub struct Job {
    pub stage: Stage,
    pub age: u32,
    pub ran: u32,
    pub held: Vec<u32>,
}

/// A table of 32 rows and 32 jobs.
#[derive(Clone, Debug, PartialEq, Eq)]
pub struct Machine {
    pub table: Table,
    pub jobs: Vec<Job>,
}

/// The sets that an accepted tick answers.
#[derive(Clone, Copy, Debug, Default, PartialEq, Eq)]
pub struct Report {
    pub finished: u32,
    pub late: u32,
    pub started: u32,
}

/// What a state may break, each clause of document 01 by itself.
#[derive(Clone, Copy, Debug, PartialEq, Eq, PartialOrd, Ord)]
pub enum Clause {
    TableRefused,
    EntryPastN,
    AgeAboveT,
    HoldsWhileNotRunning,
    RanWhileNotRunning,
    IdleOfAge0,
    RanC,
    RanAboveAge,
    HoldsOtherThanA,
    HoldsFromPOn,
    TwoHolders,
    MoreThanMRun,
}

pub const CLAUSES: [Clause; 12] = [
    Clause::TableRefused,
    Clause::EntryPastN,
    Clause::AgeAboveT,
    Clause::HoldsWhileNotRunning,
    Clause::RanWhileNotRunning,
    Clause::IdleOfAge0,
    Clause::RanC,
    Clause::RanAboveAge,
    Clause::HoldsOtherThanA,
    Clause::HoldsFromPOn,
    Clause::TwoHolders,
    Clause::MoreThanMRun,
];

/// The order in which the refusals of a tick are tried.
const ORDER: [u32; 6] = [14, 9, 10, 11, 12, 13];

impl Job {
    pub fn none() -> Job {
        Job { stage: Stage::Idle, age: 0, ran: 0, held: vec![] }
    }

    pub fn is(&self, stage: Stage) -> bool {
        self.stage == stage
    }
}

/// The tasks of a set: task k adds 2^(k-1).
pub fn members(set: u32) -> BTreeSet<u64> {
    (1..=32).filter(|k| set >> (k - 1) & 1 == 1).collect()
}

pub fn set_of(tasks: impl IntoIterator<Item = u64>) -> u32 {
    tasks.into_iter().fold(0, |set, k| set | 1 << (k - 1))
}

/// The partitions of a number: partition p adds 2^p.
pub fn partitions_of(number: u64) -> Vec<u32> {
    (0..64).filter(|p| number >> p & 1 == 1).collect()
}

pub fn number_of(partitions: &[u32]) -> u64 {
    partitions.iter().fold(0, |number, p| number | 1 << p)
}

impl Machine {
    /// The record of zeros.
    pub fn zero() -> Machine {
        let table = Table { n: 0, m: 0, p: 0, rows: vec![Row::default(); ROWS] };
        Machine { table, jobs: vec![Job::none(); ROWS] }
    }

    /// A machine set up from a table: entries past n are zero whatever the table's record had there.
    pub fn fresh(table: &Table) -> Result<Machine, Refused> {
        if let Some(refused) = table.refused() {
            return Err(refused);
        }
        let mut machine = Machine::zero();
        (machine.table.n, machine.table.m, machine.table.p) = (table.n, table.m, table.p);
        for (i, task) in table.tasks().iter().enumerate() {
            machine.table.rows[i] = *task;
            machine.jobs[i].age = task.t;
        }
        Ok(machine)
    }

    /// The tasks of a good machine, numbered from 1, with their jobs.
    pub fn each(&self) -> impl Iterator<Item = (u64, &Row, &Job)> {
        (1..).zip(self.table.tasks()).zip(&self.jobs).map(|((k, task), job)| (k, task, job))
    }

    pub fn running(&self) -> u32 {
        self.each().filter(|(_, _, job)| job.is(Stage::Running)).count() as u32
    }

    /// The partitions that no task holds, upwards.
    fn idle_partitions(&self) -> impl Iterator<Item = u32> {
        let mut taken = [false; 64];
        self.each().flat_map(|(_, _, job)| &job.held).for_each(|&p| taken[p as usize] = true);
        (0..self.table.p).filter(move |&p| !taken[p as usize])
    }

    /// The clauses that the state breaks. Where n itself is bad nothing can be said of tasks 1 to n.
    pub fn broken(&self) -> BTreeSet<Clause> {
        let mut all = BTreeSet::new();
        if self.table.refused().is_some() {
            all.insert(Clause::TableRefused);
        }
        if !(1..=32).contains(&self.table.n) {
            return all;
        }
        for i in self.table.n as usize..ROWS {
            if self.table.rows[i] != Row::default() || self.jobs[i] != Job::none() {
                all.insert(Clause::EntryPastN);
            }
        }
        let mut holders = BTreeSet::new();
        for (_, task, job) in self.each() {
            let running = job.is(Stage::Running);
            for (clause, is_broken) in [
                (Clause::AgeAboveT, job.age > task.t),
                (Clause::HoldsWhileNotRunning, !running && !job.held.is_empty()),
                (Clause::RanWhileNotRunning, !running && job.ran != 0),
                (Clause::IdleOfAge0, job.is(Stage::Idle) && job.age == 0),
                (Clause::RanC, running && job.ran >= task.c),
                (Clause::RanAboveAge, running && job.ran > job.age),
                (Clause::HoldsOtherThanA, running && job.held.len() as u64 != u64::from(task.a)),
                (Clause::HoldsFromPOn, running && job.held.iter().any(|&p| p >= self.table.p)),
                (Clause::TwoHolders, job.held.iter().any(|p| holders.contains(p))),
            ] {
                if is_broken {
                    all.insert(clause);
                }
            }
            holders.extend(job.held.iter().copied());
        }
        if self.running() > self.table.m {
            all.insert(Clause::MoreThanMRun);
        }
        all
    }

    /// Step 1: one unit has passed.
    pub fn pass(&mut self) {
        for (job, task) in self.jobs.iter_mut().zip(self.table.tasks()) {
            job.age = (job.age + 1).min(task.t);
            if job.is(Stage::Running) {
                job.ran += 1;
            }
        }
    }

    /// Step 2: finished jobs become idle and give up core and partitions.
    pub fn finish<'a>(&mut self, finished: impl IntoIterator<Item = &'a u64>) {
        for k in finished {
            let job = &mut self.jobs[*k as usize - 1];
            (job.stage, job.ran) = (Stage::Idle, 0);
            job.held.clear();
        }
    }

    /// Step 4: released tasks become waiting.
    pub fn release<'a>(&mut self, released: impl IntoIterator<Item = &'a u64>) {
        for k in released {
            let job = &mut self.jobs[*k as usize - 1];
            (job.stage, job.age) = (Stage::Waiting, 0);
        }
    }

    /// Step 5: the first waiting job starts, again and again while it fits; those that started.
    pub fn start(&mut self) -> Vec<u64> {
        std::iter::from_fn(|| self.start_first()).collect()
    }

    /// The refusals of a tick that could be given, by their place in `ORDER` and the task.
    fn refusals(&self, released: &BTreeSet<u64>, finished: &BTreeSet<u64>) -> BTreeSet<(usize, u64)> {
        let place = |number: u32| ORDER.iter().position(|&x| x == number).unwrap();
        if !self.broken().is_empty() {
            return BTreeSet::from([(place(14), 0)]);
        }
        let beyond = released.union(finished).filter(|&&k| k > self.table.n);
        let mut all: BTreeSet<(usize, u64)> = beyond.map(|&k| (place(9), k)).collect();
        let known: BTreeSet<u64> = finished.iter().copied().filter(|&k| k <= self.table.n).collect();
        let mut older = self.clone();
        older.pass();
        let mut freed = older.clone();
        freed.finish(&known);
        for (k, task, job) in self.each() {
            let after = &older.jobs[k as usize - 1];
            for (number, given) in [
                (10, finished.contains(&k) && !job.is(Stage::Running)),
                (11, job.is(Stage::Running) && after.ran >= task.c && !finished.contains(&k)),
                (12, released.contains(&k) && after.age < task.t),
                (13, released.contains(&k) && !freed.jobs[k as usize - 1].is(Stage::Idle)),
            ] {
                if given {
                    all.insert((place(number), k));
                }
            }
        }
        all
    }

    pub fn refused(&self, released: u32, finished: u32) -> Option<Refused> {
        let all = self.refusals(&members(released), &members(finished));
        all.first().map(|&(at, task)| Refused { number: ORDER[at], at: task })
    }

    /// One tick: the machine after it and the three sets, or the refusal.
    pub fn tick(&self, released: u32, finished: u32) -> Result<(Machine, Report), Refused> {
        if let Some(refused) = self.refused(released, finished) {
            return Err(refused);
        }
        let mut next = self.clone();
        next.pass();
        next.finish(&members(finished));
        let late = self.each().zip(&next.jobs).filter(|((_, task, before), after)| {
            !after.is(Stage::Idle) && before.age == task.d - 1 && after.age == task.d
        });
        let late = set_of(late.map(|((k, _, _), _)| k));
        next.release(&members(released));
        let started = set_of(next.start());
        Ok((next, Report { finished, late, started }))
    }

    /// Whether a core and as many partitions are idle as the task needs.
    pub fn fits(&self, task: &Row) -> bool {
        self.running() < self.table.m && self.idle_partitions().count() as u64 >= u64::from(task.a)
    }

    /// One round of step 5: starts the first waiting job if it fits, and names it.
    fn start_first(&mut self) -> Option<u64> {
        let (k, task, _) = self.each().find(|(_, _, job)| job.is(Stage::Waiting))?;
        if !self.fits(task) {
            return None;
        }
        let held = self.idle_partitions().take(task.a as usize).collect();
        let job = &mut self.jobs[k as usize - 1];
        (job.stage, job.ran, job.held) = (Stage::Running, 0, held);
        Some(k)
    }

    /// A number for the whole record, by which two records are compared: of n, M, P, the 32 rows and the 32 jobs, those
    /// of 64 bits taken as two of 32, the low one first.
    pub fn digest(&self) -> u32 {
        let halves = |x: u64| [(x & 0xffff_ffff) as u32, (x >> 32) as u32];
        let mut numbers = halves(self.table.n).to_vec();
        numbers.extend([self.table.m, self.table.p]);
        numbers.extend(self.table.rows.iter().flat_map(|row| [row.d, row.t, row.c, row.a]));
        for job in &self.jobs {
            numbers.extend([job.stage as u32, job.age, job.ran]);
            numbers.extend(halves(number_of(&job.held)));
        }
        digest(numbers)
    }
}

/// One number for many: h = (1,000,003 h + x) mod 4,294,967,291 for each in turn, from 0.
fn digest(numbers: impl IntoIterator<Item = u32>) -> u32 {
    numbers.into_iter().fold(0, |h: u64, x| (1_000_003 * h + u64::from(x)) % 4_294_967_291) as u32
}

#[cfg(test)]
mod tests {
    use super::*;

    type Line = (u32, u32, u32, u32);

    fn run(table: &Table, reports: &[(u32, u32)]) -> (Machine, Vec<(u32, u32, u32, u32)>) {
        let mut machine = Machine::fresh(table).unwrap();
        let mut lines: Vec<Line> = vec![];
        for &(released, finished) in reports {
            lines.push(match machine.tick(released, finished) {
                Ok((next, r)) => {
                    machine = next;
                    assert!(machine.broken().is_empty());
                    (0, r.finished, r.late, r.started)
                }
                Err(r) => (r.number, 0, 0, 0),
            });
        }
        (machine, lines)
    }

    #[test]
    fn p8() {
        let t = Table::new(3, 4, &[(6, 6, 2, 1), (8, 8, 3, 2), (9, 9, 2, 2), (12, 12, 2, 1)]);
        let reports = [(15, 0), (0, 0), (0, 1), (0, 2), (0, 4), (1, 8), (0, 8), (1, 0)];
        let (_, lines) = run(&t, &reports);
        let expected: [Line; 8] = [
            (0, 0, 0, 3),
            (0, 0, 0, 0),
            (0, 1, 0, 4),
            (0, 2, 0, 8),
            (0, 4, 0, 0),
            (12, 0, 0, 0),
            (0, 8, 0, 0),
            (0, 0, 0, 1),
        ];
        assert_eq!(lines, expected);
        let (machine, _) = run(&t, &reports[..3]);
        assert_eq!(machine.jobs[2].held, [0, 3]);
    }

    #[test]
    fn p9() {
        let t = Table::new(1, 1, &[(2, 4, 2, 1), (3, 4, 2, 1)]);
        let (_, lines) = run(&t, &[(3, 0), (0, 0), (0, 1), (0, 0), (0, 2)]);
        assert_eq!(lines, [(0, 0, 0, 1), (0, 0, 0, 0), (0, 1, 0, 2), (0, 0, 2, 0), (0, 2, 0, 0)]);
    }

    #[test]
    fn p10() {
        let t = Table::new(1, 1, &[(3, 3, 3, 1), (1, 1, 1, 1)]);
        let (_, lines) = run(&t, &[(3, 0), (2, 0)]);
        assert_eq!(lines, [(0, 0, 0, 1), (13, 0, 0, 0)]);
    }

    fn refusal(machine: &Machine, released: u32, finished: u32) -> (u32, u64) {
        machine.refused(released, finished).map_or((0, 0), |r| (r.number, r.at))
    }

    #[test]
    fn refusals_in_order() {
        let t = Table::new(1, 1, &[(2, 4, 2, 1), (3, 4, 2, 1), (1, 1, 1, 0)]);
        let fresh = Machine::fresh(&t).unwrap();
        assert_eq!(refusal(&Machine::zero(), 0, 0), (14, 0));
        assert_eq!(refusal(&fresh, 0, 0x80), (9, 8));
        assert_eq!(refusal(&fresh, 0x20, 0x81), (9, 6));
        assert_eq!(refusal(&fresh, 0, 6), (10, 2));
        let (running, _) = fresh.tick(7, 0).unwrap();
        assert_eq!(refusal(&running, 7, 0), (12, 1));
        let (running, _) = running.tick(0, 0).unwrap();
        // run for C ticks and not finished: 11 before 12 and 13
        assert_eq!(refusal(&running, 7, 0), (11, 1));
        assert_eq!(refusal(&running, 6, 1), (12, 2));
        assert_eq!(refusal(&running, 4, 1), (13, 3));
        assert_eq!(refusal(&running, 0, 1), (0, 0));
    }

    #[test]
    fn late_is_said_once_and_not_of_a_finished_job() {
        let t = Table::new(1, 1, &[(2, 2, 2, 1), (2, 2, 1, 1)]);
        let (_, lines) = run(&t, &[(3, 0), (0, 0), (0, 1), (0, 2), (1, 0)]);
        assert_eq!(lines, [(0, 0, 0, 1), (0, 0, 0, 0), (0, 1, 2, 2), (0, 2, 0, 0), (0, 0, 0, 1)]);
    }

    #[test]
    fn set_up_clears_everything_past_n() {
        let mut t = Table::new(1, 1, &[(2, 2, 2, 1)]);
        t.rows.resize(ROWS, Row { d: 1, t: 2, c: 3, a: 4 });
        let fresh = Machine::fresh(&t).unwrap();
        assert_eq!(fresh, Machine::fresh(&Table::new(1, 1, &[(2, 2, 2, 1)])).unwrap());
        assert!(fresh.broken().is_empty());
    }

    #[test]
    fn the_digest_sees_every_field() {
        let base = Machine::zero();
        let mut seen = BTreeSet::from([base.digest()]);
        let mut differs = |change: &dyn Fn(&mut Machine)| {
            let mut m = base.clone();
            change(&mut m);
            assert!(seen.insert(m.digest()));
        };
        differs(&|m| m.table.n = 1);
        differs(&|m| m.table.n = 1 << 32);
        differs(&|m| m.table.m = 1);
        differs(&|m| m.table.p = 1);
        for i in 0..ROWS {
            differs(&|m| m.table.rows[i].d = 1);
            differs(&|m| m.table.rows[i].t = 1);
            differs(&|m| m.table.rows[i].c = 1);
            differs(&|m| m.table.rows[i].a = 1);
            differs(&|m| m.jobs[i].stage = Stage::Waiting);
            differs(&|m| m.jobs[i].age = 1);
            differs(&|m| m.jobs[i].ran = 1);
            (0..64).for_each(|p| differs(&|m| m.jobs[i].held = vec![p]));
        }
    }
}
