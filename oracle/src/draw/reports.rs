//! Reports to a machine: mostly acceptable ones, so that jobs really run, wait, finish and become late, and faulty
//! ones.

use crate::machine::{members, set_of, Job, Machine, Stage};
use crate::rng::Rng;
use crate::table::Row;

/// How a unit behaves: of a hundred, how often a job ends before its longest run, a task is released as soon as it may
/// be, and a report is made faulty.
#[derive(Clone, Copy, Debug)]
pub struct Habit {
    pub early: u32,
    pub prompt: u32,
    pub faulty: u32,
}

pub fn habit(rng: &mut Rng) -> Habit {
    Habit {
        early: rng.pick(&[0, 0, 5, 30, 80]),
        prompt: rng.pick(&[5, 30, 80, 100, 100]),
        faulty: rng.pick(&[0, 5, 20, 50]),
    }
}

fn percent(rng: &mut Rng, often: u32) -> bool {
    rng.range(1, 100) <= often
}

/// Released and finished that a good machine accepts.
pub fn acceptable(rng: &mut Rng, machine: &Machine, habit: Habit) -> (u32, u32) {
    let (mut released, mut finished) = (vec![], vec![]);
    for (k, task, job) in machine.each() {
        let ends = job.is(Stage::Running) && (job.ran + 1 == task.c || percent(rng, habit.early));
        if ends {
            finished.push(k);
        }
        let may = job.age + 1 >= task.t && (ends || job.is(Stage::Idle));
        if may && percent(rng, habit.prompt) {
            released.push(k);
        }
    }
    (set_of(released), set_of(finished))
}

/// A report to a good machine, now and then faulty.
pub fn any(rng: &mut Rng, machine: &Machine, habit: Habit) -> (u32, u32) {
    let mut report = acceptable(rng, machine, habit);
    if percent(rng, habit.faulty) {
        for _ in 0..rng.pick(&[1, 1, 1, 2, 3]) {
            spoil(rng, machine, &mut report);
        }
    }
    report
}

/// Adds one fault that this state allows.
fn spoil(rng: &mut Rng, machine: &Machine, report: &mut (u32, u32)) {
    let n = machine.table.n;
    let known = set_of(1..=n);
    let tasks = |which: &dyn Fn(&Row, &Job) -> bool| -> u32 {
        set_of(machine.each().filter(|(_, task, job)| which(task, job)).map(|(k, _, _)| k))
    };
    let one_of = |rng: &mut Rng, set: u32| {
        let all: Vec<u64> = members(set).into_iter().collect();
        set_of([all[rng.index(all.len())]])
    };
    let faults = [
        (9, !known),
        (10, tasks(&|_, job| !job.is(Stage::Running))),
        (11, tasks(&|task, job| job.is(Stage::Running) && job.ran + 1 == task.c)),
        (12, tasks(&|task, job| job.age + 1 < task.t)),
        (13, tasks(&|task, job| job.age + 1 >= task.t && !job.is(Stage::Idle))),
        (13, tasks(&|task, job| job.age + 1 >= task.t && job.is(Stage::Waiting))),
        (0, known),
    ];
    let possible: Vec<(u32, u32)> = faults.into_iter().filter(|&(_, set)| set != 0).collect();
    let (number, set) = rng.pick(&possible);
    match number {
        9 if rng.once_in(2) => report.0 |= one_of(rng, set),
        9 | 10 => report.1 |= one_of(rng, set),
        11 => report.1 &= !one_of(rng, set),
        12 | 13 => report.0 |= one_of(rng, set),
        _ => {
            let among = if rng.once_in(2) { known } else { u32::MAX };
            *report = (rng.word() & rng.word() & among, rng.word() & rng.word() & among);
        }
    }
}
