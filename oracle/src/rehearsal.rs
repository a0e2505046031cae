//! A table rehearsed on the bench: all tasks released at tick 0 and then each period, every job running its longest,
//! for the least common multiple of the periods or until some job becomes late.

use crate::machine::{Job, Machine, Stage};
use crate::table::{Refused, Row, Table};
use std::collections::BTreeMap;

/// The largest multiple that is rehearsed.
pub const MOST: u128 = 1_000_000;

/// What a rehearsal shows. Where no job is late the tick is 0 and nobody is named.
#[derive(Clone, Debug, Default, PartialEq, Eq)]
pub struct Rehearsal {
    /// The tick at which it ended because of a late job.
    pub tick: u64,
    /// All that became late in that tick, upwards.
    pub late: Vec<u64>,
    /// How many jobs each of tasks 1 to n started before the end.
    pub started: Vec<u64>,
    pub met: Met,
}

/// What was met on the way, by which a reader sees that the tables try enough.
#[derive(Clone, Copy, Debug, Default, PartialEq, Eq)]
pub struct Met {
    /// The first waiting job had no core.
    pub no_core: bool,
    /// The first waiting job had a core and too few partitions.
    pub no_partitions: bool,
    /// A later waiting job would have fit.
    pub held_back: bool,
    /// A job finished at its deadline.
    pub just_in_time: bool,
    /// A job would have started in the tick that ended the rehearsal.
    pub cut_off: bool,
}

impl Rehearsal {
    /// The lowest late task, or 0.
    pub fn task(&self) -> u64 {
        self.late.first().copied().unwrap_or(0)
    }
}

/// Of each prime in the number, the power of it that is in the number.
pub fn prime_powers(mut number: u32) -> BTreeMap<u32, u32> {
    let mut powers = BTreeMap::new();
    let mut prime = 2;
    while number > 1 {
        if u64::from(prime) * u64::from(prime) > u64::from(number) {
            prime = number;
        }
        while number.is_multiple_of(prime) {
            *powers.entry(prime).or_insert(1) *= prime;
            number /= prime;
        }
        prime += 1;
    }
    powers
}

/// The least common multiple of the periods of a table that is not refused: of each prime the highest power that is in
/// some period. What does not fit 128 bits is the largest number that does.
pub fn multiple(table: &Table) -> u128 {
    let mut highest: BTreeMap<u32, u32> = BTreeMap::new();
    for task in table.tasks() {
        for (prime, power) in prime_powers(task.t) {
            let most = highest.entry(prime).or_default();
            *most = power.max(*most);
        }
    }
    highest.values().fold(1, |product: u128, &power| product.saturating_mul(power.into()))
}

/// The bench: a machine, and of each task the tick at which its unfinished job becomes late.
struct Bench {
    machine: Machine,
    deadlines: Vec<Option<u64>>,
    met: Met,
}

impl Bench {
    fn new(machine: Machine) -> Bench {
        Bench { deadlines: vec![None; machine.table.tasks().len()], machine, met: Met::default() }
    }

    fn tasks(&self, which: impl Fn(&Row, &Job) -> bool) -> Vec<u64> {
        self.machine.each().filter(|(_, task, job)| which(task, job)).map(|(k, _, _)| k).collect()
    }

    /// One unit has passed, and every job that has run its longest finishes.
    fn finish(&mut self, now: u64) {
        self.machine.pass();
        let finished = self.tasks(|task, job| job.is(Stage::Running) && job.ran == task.c);
        self.machine.finish(&finished);
        for k in finished {
            let deadline = self.deadlines[k as usize - 1].take();
            self.met.just_in_time |= deadline == Some(now);
        }
    }

    fn late(&self, now: u64) -> Vec<u64> {
        (1..).zip(&self.deadlines).filter(|(_, deadline)| **deadline == Some(now)).map(|(k, _)| k).collect()
    }

    fn due(&self, now: u64) -> Vec<u64> {
        self.tasks(|task, _| now.is_multiple_of(u64::from(task.t)))
    }

    fn release(&mut self, released: &[u64], now: u64) {
        for k in released {
            let at = *k as usize - 1;
            assert!(self.machine.jobs[at].is(Stage::Idle), "task {k} is due at {now} and its job is unfinished");
            self.deadlines[at] = Some(now + u64::from(self.machine.table.rows[at].d));
        }
        self.machine.release(released);
    }

    fn start(&mut self) -> Vec<u64> {
        let started = self.machine.start();
        let (machine, met) = (&self.machine, &mut self.met);
        let waits = |job: &Job| job.is(Stage::Waiting);
        if machine.each().any(|(_, _, job)| waits(job)) {
            if machine.running() == machine.table.m {
                met.no_core = true;
            } else {
                met.no_partitions = true;
                met.held_back = met.held_back || machine.each().any(|(_, task, job)| waits(job) && machine.fits(task));
            }
        }
        started
    }

    /// Whether a job would start now if the rehearsal went on past its end.
    fn would_start(mut self, now: u64) -> bool {
        let mut due = self.due(now);
        due.retain(|k| self.machine.jobs[*k as usize - 1].is(Stage::Idle));
        self.release(&due, now);
        !self.start().is_empty()
    }
}

/// Ticks 0 to the multiple, one by one. Nothing is released at the multiple itself.
pub fn run(table: &Table) -> Result<Rehearsal, Refused> {
    let mut bench = Bench::new(Machine::fresh(table)?);
    let end = multiple(table);
    if end > MOST {
        return Err(Refused { number: 17, at: 0 });
    }
    let end = end as u64;
    let mut started = vec![0; bench.deadlines.len()];
    for now in 0..=end {
        bench.finish(now);
        let late = bench.late(now);
        if !late.is_empty() {
            let met = bench.met;
            let met = Met { cut_off: now < end && bench.would_start(now), ..met };
            return Ok(Rehearsal { tick: now, late, started, met });
        }
        if now < end {
            bench.release(&bench.due(now), now);
        }
        for k in bench.start() {
            started[k as usize - 1] += 1;
        }
    }
    Ok(Rehearsal { tick: 0, late: vec![], started, met: bench.met })
}

#[cfg(test)]
mod tests {
    use super::*;
    use crate::draw::rehearsals;
    use crate::machine::set_of;
    use crate::rng::Rng;

    const P1: [(u32, u32, u32, u32); 3] = [(40, 50, 2, 1), (60, 60, 3, 2), (80, 100, 4, 2)];
    const P8: [(u32, u32, u32, u32); 4] = [(6, 6, 2, 1), (8, 8, 3, 2), (9, 9, 2, 2), (12, 12, 2, 1)];

    fn shows(m: u32, p: u32, rows: &[(u32, u32, u32, u32)]) -> (u64, u64, Vec<u64>) {
        let r = run(&Table::new(m, p, rows)).unwrap();
        (r.tick, r.task(), r.started)
    }

    fn refused(table: &Table) -> Option<(u32, u64)> {
        run(table).err().map(|r| (r.number, r.at))
    }

    #[test]
    fn p1_and_p8() {
        assert_eq!(shows(2, 4, &P1), (0, 0, vec![6, 5, 3]));
        assert_eq!(shows(1, 4, &P1), (0, 0, vec![6, 5, 3]));
        assert_eq!(shows(3, 4, &P8), (0, 0, vec![12, 9, 8, 6]));
        assert_eq!(shows(1, 4, &P8), (12, 4, vec![2, 2, 1, 0]));
        // late at the tick at which it is due again
        assert_eq!(shows(3, 2, &P8), (24, 4, vec![4, 3, 3, 2]));
    }

    #[test]
    fn p9_and_p10() {
        assert_eq!(shows(1, 1, &[(2, 4, 2, 1), (3, 4, 2, 1)]), (3, 2, vec![1, 1]));
        assert_eq!(shows(1, 1, &[(3, 4, 2, 1); 2]), (3, 2, vec![1, 1]));
        assert_eq!(shows(1, 1, &[(3, 3, 3, 1), (1, 1, 1, 1)]), (1, 2, vec![1, 0]));
        assert_eq!(shows(1, 1, &[(4, 4, 3, 1), (2, 2, 1, 1)]), (2, 2, vec![1, 0]));
    }

    #[test]
    fn at_the_multiple() {
        assert_eq!(shows(1, 1, &[(3, 3, 2, 1); 2]), (3, 2, vec![1, 1]));
        assert_eq!(shows(1, 1, &[(4, 4, 2, 1); 2]), (0, 0, vec![1, 1]));
        assert_eq!(shows(1, 1, &[(1, 1, 1, 1)]), (0, 0, vec![1]));
        assert_eq!(shows(1, 1, &[(65_535, 65_535, 65_535, 1)]), (0, 0, vec![1]));
    }

    #[test]
    fn the_lowest_of_two_late_tasks() {
        let table = Table::new(1, 1, &[(1, 10, 1, 1), (3, 10, 1, 0), (2, 10, 2, 1), (2, 10, 1, 1)]);
        assert_eq!(run(&table).unwrap().late, [3, 4]);
        assert_eq!(
            shows(1, 1, &[(1, 10, 1, 1), (3, 10, 1, 0), (2, 10, 2, 1), (2, 10, 1, 1)]),
            (2, 3, vec![1, 1, 0, 0])
        );
    }

    #[test]
    fn a_million_ticks_and_more() {
        let exact = [(15_625, 15_625, 1, 1), (64, 64, 1, 1)];
        assert_eq!(multiple(&Table::new(1, 1, &exact)), 1_000_000);
        assert_eq!(shows(1, 1, &exact), (0, 0, vec![64, 15_625]));
        for (rows, l) in [
            ([(101, 101, 1, 1), (9_901, 9_901, 1, 1)], 1_000_001),
            ([(1_000, 1_000, 1, 1), (1_001, 1_001, 1, 1)], 1_001_000),
        ] {
            let table = Table::new(1, 1, &rows);
            assert_eq!(multiple(&table), l);
            assert_eq!(refused(&table), Some((17, 0)));
        }
        // the 32 largest periods: their multiple does not fit 128 bits
        let rows: Vec<_> = (65_504..=65_535).map(|t| (t, t, 1, 1)).collect();
        assert_eq!(refused(&Table::new(1, 1, &rows)), Some((17, 0)));
    }

    #[test]
    fn the_table_s_own_refusal_first_and_nothing_past_n() {
        let large = [(1_000, 1_000, 1, 1), (1_001, 1_001, 1, 1), (5, 5, 6, 1)];
        assert_eq!(refused(&Table::new(1, 1, &large)), Some((6, 3)));
        assert_eq!(refused(&Table::new(0, 1, &large[..2])), Some((2, 0)));
        let mut table = Table::new(1, 1, &large);
        table.n = 1;
        assert_eq!(run(&table).unwrap().started, [1]);
    }

    #[test]
    fn the_multiple_is_the_first_number_that_every_period_divides() {
        let mut rng = Rng::new(3);
        for _ in 0..2_000 {
            let longest = rng.pick(&[6, 12, 30, 60]);
            let rows: Vec<_> = (0..rng.range(1, 4)).map(|_| rng.range(1, longest)).map(|t| (t, t, 1, 0)).collect();
            let counted = (1u32..).find(|l| rows.iter().all(|row| l.is_multiple_of(row.1))).unwrap();
            assert_eq!(multiple(&Table::new(1, 1, &rows)), u128::from(counted));
        }
    }

    /// The tick that the machine itself takes accepts every report before the end, names nobody late and starts the
    /// same jobs; without a late job each task starts the multiple over its period.
    #[test]
    fn every_tick_before_the_end_is_accepted() {
        let mut rng = Rng::new(4);
        for _ in 0..400 {
            let table = rehearsals::small(&mut rng);
            let Ok(shown) = run(&table) else { continue };
            let end = multiple(&table) as u64;
            let mut machine = Machine::fresh(&table).unwrap();
            let mut started = vec![0; table.tasks().len()];
            let last = if shown.late.is_empty() { end } else { shown.tick - 1 };
            for now in 0..=last {
                let released = machine.each().filter(|(_, task, _)| now < end && now.is_multiple_of(task.t.into()));
                let finished = machine.each().filter(|(_, task, job)| job.is(Stage::Running) && job.ran + 1 == task.c);
                let [released, finished] = [set_of(released.map(|x| x.0)), set_of(finished.map(|x| x.0))];
                let (next, report) = machine.tick(released, finished).expect("a report that is accepted");
                assert_eq!(report.late, 0);
                crate::machine::members(report.started).iter().for_each(|&k| started[k as usize - 1] += 1);
                machine = next;
            }
            assert_eq!(started, shown.started);
            if shown.late.is_empty() {
                let whole: Vec<u64> = table.tasks().iter().map(|task| end / u64::from(task.t)).collect();
                assert_eq!(started, whole);
                assert!(machine.each().all(|(_, _, job)| job.is(Stage::Idle)));
            }
        }
    }
}
