//! A search for a counterexample to demand 3: on an admitted table every job starts before it has waited its slack,
//! none is late, no release meets an unfinished job, and no partition is shared. Also how tight the test is: how often
//! a table that is just not admitted, or one with still less slack, can be made to have a late job.

use crate::admission::full;
use crate::draw::reports::{acceptable, habit, Habit};
use crate::draw::tables::{at_edge, short, tiny, Edge};
use crate::machine::{set_of, Job, Machine, Report, Stage};
use crate::rng::Rng;
use crate::table::{Row, Table};
use std::collections::{BTreeSet, HashSet, VecDeque};

/// How the releases are chosen. Except under `Habits`, jobs run their longest.
#[derive(Clone, Copy, Debug)]
enum Plan {
    /// At random.
    Habits(Habit),
    /// All at once when all may be, and then each as soon as it may be.
    Together,
    /// The victim and those above it are held back until the machine has no room for the victim; then all that may be
    /// released is.
    Ambush { victim: u64, sprung: bool },
}

fn plan(rng: &mut Rng, table: &Table) -> Plan {
    match rng.range(0, 5) {
        0 => Plan::Habits(habit(rng)),
        1 => Plan::Together,
        _ => ambush(rng, table.n),
    }
}

fn ambush(rng: &mut Rng, n: u64) -> Plan {
    Plan::Ambush { victim: u64::from(rng.range(1, n as u32)), sprung: false }
}

const FULL: Habit = Habit { early: 0, prompt: 100, faulty: 0 };

/// The report of the next tick, and the plan after it.
fn report(rng: &mut Rng, machine: &Machine, plan: Plan) -> ((u32, u32), Plan) {
    let (all, finished) = acceptable(rng, machine, FULL);
    match plan {
        Plan::Habits(habit) => (acceptable(rng, machine, habit), plan),
        Plan::Together => {
            let every = set_of(1..=machine.table.n);
            let at_rest = machine.each().all(|(_, _, job)| job.is(Stage::Idle));
            let released = if all == every || !at_rest { all } else { 0 };
            ((released, finished), plan)
        }
        Plan::Ambush { victim, sprung: true } => {
            let waits = machine.jobs[victim as usize - 1].is(Stage::Waiting);
            let next = if waits { plan } else { ambush(rng, machine.table.n) };
            ((all, finished), next)
        }
        Plan::Ambush { victim, .. } => {
            let full = !machine.fits(&machine.table.rows[victim as usize - 1]);
            let ready = all >> (victim - 1) & 1 == 1;
            if ready && (full && rng.once_in(2) || rng.once_in(40)) {
                return ((all, finished), Plan::Ambush { victim, sprung: true });
            }
            let below = set_of(victim + 1..=machine.table.n);
            ((all & below, finished), plan)
        }
    }
}

fn slack(task: &Row) -> u32 {
    task.d - task.c
}

/// What an accepted tick on an admitted table must not show. A job that waits with S - 1 could start at S at the
/// earliest.
fn breach(after: &Machine, report: &Report) -> Option<String> {
    if report.late != 0 {
        return Some(format!("late: {}", report.late));
    }
    let mut taken = BTreeSet::new();
    for (k, task, job) in after.each() {
        if job.is(Stage::Waiting) && job.age + 1 >= slack(task) {
            return Some(format!("task {k} waits since {} ticks, its slack being {}", job.age, slack(task)));
        }
        if report.started >> (k - 1) & 1 == 1 && job.age >= slack(task) {
            return Some(format!("task {k} started after {} ticks, its slack being {}", job.age, slack(task)));
        }
        if job.held.iter().any(|p| !taken.insert(*p)) {
            return Some(format!("task {k} shares a partition"));
        }
    }
    None
}

/// Whether some release in the next tick would meet refusal 13.
fn meets_13(rng: &mut Rng, machine: &Machine) -> bool {
    let due = set_of(machine.each().filter(|(_, task, job)| job.age + 1 >= task.t).map(|(k, _, _)| k));
    let (_, finished) = acceptable(rng, machine, FULL);
    machine.refused(due, finished).is_some_and(|r| r.number == 13)
}

/// One run over a table: how many ticks, and where it went wrong.
struct Run {
    ticks: u64,
    started: u64,
    /// The longest wait of a started job in hundredths of the longest that is allowed, S - 1.
    nearest: u32,
    wrong: Option<String>,
}

fn run(rng: &mut Rng, table: &Table, length: u64) -> Run {
    let mut machine = Machine::fresh(table).expect("a good table");
    let mut run = Run { ticks: 0, started: 0, nearest: 0, wrong: None };
    let mut plan = plan(rng, table);
    while run.ticks < length && run.wrong.is_none() {
        let ((released, finished), next) = report(rng, &machine, plan);
        plan = next;
        let (after, sets) = machine.tick(released, finished).expect("an acceptable report");
        run.ticks += 1;
        run.started += u64::from(sets.started.count_ones());
        for (k, task, job) in after.each() {
            if sets.started >> (k - 1) & 1 == 1 {
                run.nearest = run.nearest.max(100 * job.age / slack(task).saturating_sub(1).max(1));
            }
        }
        run.wrong = breach(&after, &sets);
        if run.wrong.is_none() && meets_13(rng, &after) {
            run.wrong = Some("a release would meet an unfinished job".to_string());
        }
        machine = after;
    }
    run
}

/// Every state that accepted reports can lead to, up to `most` states: the ticks tried, whether all were, and the first
/// breach.
fn exhaust(table: &Table, most: usize) -> (u64, bool, Option<String>) {
    let fresh = Machine::fresh(table).expect("a good table");
    let n = table.n as usize;
    let mut seen: HashSet<Vec<Job>> = HashSet::from([fresh.jobs[..n].to_vec()]);
    let mut left = VecDeque::from([fresh]);
    let mut ticks = 0;
    while let Some(machine) = left.pop_front() {
        for released in 0..1 << n {
            for finished in 0..1 << n {
                ticks += 1;
                let (after, sets) = match machine.tick(released, finished) {
                    Ok(moved) => moved,
                    Err(r) if r.number == 13 => return (ticks, true, Some(format!("refusal 13 of task {}", r.at))),
                    Err(_) => continue,
                };
                if let Some(wrong) = breach(&after, &sets) {
                    return (ticks, true, Some(wrong));
                }
                if seen.insert(after.jobs[..n].to_vec()) {
                    left.push_back(after);
                }
            }
        }
        if seen.len() > most {
            return (ticks, false, None);
        }
    }
    (ticks, true, None)
}

struct Outcome {
    passed: u64,
    failed: u64,
}

impl Outcome {
    fn note(&mut self, table: &Table, wrong: Option<String>) {
        match wrong {
            None => self.passed += 1,
            Some(wrong) => {
                self.failed += 1;
                println!("COUNTEREXAMPLE: {wrong}; {table:?}");
            }
        }
    }
}

/// Admitted tables with margins just above 0, each run by several plans.
fn admitted(rng: &mut Rng, ticks: u64, outcome: &mut Outcome) {
    let (mut tables, mut done, mut started, mut nearest) = (0, 0, 0, 0);
    while done < ticks {
        let table = short(rng);
        let Some(table) = at_edge(rng, table, Edge::Within) else { continue };
        assert!(full(&table).admitted);
        tables += 1;
        for _ in 0..4 {
            let run = run(rng, &table, 500);
            done += run.ticks;
            started += run.started;
            nearest = nearest.max(run.nearest);
            outcome.note(&table, run.wrong);
        }
    }
    println!("{tables} admitted tables with margins just above 0, {done} ticks, {started} jobs started,");
    println!("  the longest wait {nearest} hundredths of what is allowed");
}

/// Small admitted tables, in every state that they can reach.
fn exhausted(rng: &mut Rng, ticks: u64, outcome: &mut Outcome) {
    let (mut tables, mut whole, mut done) = (0, 0, 0);
    while done < ticks {
        let table = few(rng);
        if !full(&table).admitted {
            continue;
        }
        let (tried, all, wrong) = exhaust(&table, 2_000);
        tables += 1;
        whole += u64::from(all);
        done += tried;
        outcome.note(&table, wrong);
    }
    println!("{tables} admitted tables of 1 to 3 tasks, {whole} of them in every state that they reach, {done} ticks");
}

/// A tiny table whose deadlines are at the edge.
fn few(rng: &mut Rng) -> Table {
    let mut table = tiny(rng);
    for row in &mut table.rows {
        row.t = row.t.min(18).max(row.c);
        row.d = row.d.min(row.t);
    }
    at_edge(rng, table.clone(), Edge::Within).unwrap_or(table)
}

/// How often a table with so much slack can be made to have a late job.
fn tightness(rng: &mut Rng, edge: Edge, ticks: u64) {
    let (mut tables, mut done, mut broken, mut late) = (0, 0, 0, 0);
    while done < ticks {
        let table = short(rng);
        let Some(table) = at_edge(rng, table, edge) else { continue };
        if full(&table).admitted {
            continue;
        }
        tables += 1;
        let mut found = (false, false);
        for _ in 0..8 {
            let run = run(rng, &table, 300);
            done += run.ticks;
            found.0 |= run.wrong.is_some();
            found.1 |= run.wrong.is_some_and(|w| w.starts_with("late")) || late_later(rng, &table);
        }
        broken += u64::from(found.0);
        late += u64::from(found.1);
    }
    println!(
        "{edge:?}: of {tables} tables that are not admitted {broken} had a job that waited its slack, {late} a late one"
    );
}

/// Whether a job becomes late in a run that does not end at the first long wait.
fn late_later(rng: &mut Rng, table: &Table) -> bool {
    let mut machine = Machine::fresh(table).expect("a good table");
    let mut plan = plan(rng, table);
    for _ in 0..300 {
        let ((released, finished), next) = report(rng, &machine, plan);
        let (after, sets) = machine.tick(released, finished).expect("an acceptable report");
        if sets.late != 0 {
            return true;
        }
        (machine, plan) = (after, next);
    }
    false
}

/// About `ticks` ticks in all; the answer is how many runs kept demand 3 and how many did not.
pub fn search(ticks: u64, seed: u64) -> (u64, u64) {
    let mut rng = Rng::new(seed);
    let mut outcome = Outcome { passed: 0, failed: 0 };
    admitted(&mut rng, ticks / 2, &mut outcome);
    exhausted(&mut rng, ticks / 4, &mut outcome);
    for edge in [Edge::OneShort, Edge::Share(80), Edge::Share(60), Edge::Share(40), Edge::Share(20), Edge::Share(0)] {
        tightness(&mut rng, edge, ticks / 24);
    }
    (outcome.passed, outcome.failed)
}

#[cfg(test)]
mod tests {
    use super::*;

    /// The search finds what is there to find: with no slack left, jobs wait too long, become late, and releases meet
    /// them.
    #[test]
    fn overloaded_tables_are_caught() {
        let mut rng = Rng::new(1);
        let table = Table::new(1, 1, &[(3, 3, 3, 1), (1, 1, 1, 1)]);
        assert!((0..10).all(|_| run(&mut rng, &table, 200).wrong.is_some()));
        assert!(exhaust(&table, 1000).2.is_some());
        assert!(late_later(&mut rng, &Table::new(1, 1, &[(2, 4, 2, 1), (2, 4, 2, 1), (2, 4, 2, 1)])));
    }

    #[test]
    fn p3_is_kept_in_every_state() {
        let (_, all, wrong) = exhaust(&Table::new(1, 1, &[(7, 7, 2, 1)]), 1000);
        assert!(all && wrong.is_none());
    }
}
