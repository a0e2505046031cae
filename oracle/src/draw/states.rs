//! States: tables on which much happens, good states that no run need reach, and states with one thing spoiled.

use crate::draw::tables;
use crate::machine::{partitions_of, Job, Machine, Stage};
use crate::rng::Rng;
use crate::table::{Row, Table, ROWS};

/// A good table with short periods, most of them overloaded, so that jobs wait and become late within a few ticks.
pub fn busy_table(rng: &mut Rng) -> Table {
    if rng.once_in(12) {
        return tables::loose(rng);
    }
    if rng.once_in(8) {
        return tables::edge(rng);
    }
    let n = if rng.once_in(2) { rng.range(1, 32) } else { rng.range(1, 8) };
    let m = if rng.once_in(2) { rng.range(1, 16) } else { rng.range(1, 4) };
    let p = if rng.once_in(3) { 64 } else { rng.range(1, 64) };
    let widest = rng.range(0, p);
    let longest = rng.pick(&[1, 3, 8, 20, 60]);
    let rows = (0..n)
        .map(|_| {
            let t = rng.range(1, longest);
            let d = if rng.once_in(2) { t } else { rng.range(1, t) };
            Row { d, t, c: if rng.once_in(2) { rng.range(1, d) } else { rng.scaled(1, d) }, a: rng.range(0, widest) }
        })
        .collect();
    Table { n: u64::from(n), m, p, rows }
}

/// A good state over any busy table: overdue jobs, waiting jobs that would fit, gaps between the partitions held.
pub fn arbitrary(rng: &mut Rng) -> Machine {
    let mut machine = Machine::fresh(&busy_table(rng)).expect("a good table");
    let mut free: Vec<u32> = (0..machine.table.p).collect();
    let (mut running, run) = (0, rng.pick(&[1, 2, 4]));
    for i in 0..machine.table.n as usize {
        let task = machine.table.rows[i];
        let any_age = rng.range(0, task.t);
        let age = rng.pick(&[0, 1, task.d - 1, task.d, task.t - 1, task.t, any_age]);
        let can_run = running < machine.table.m && free.len() >= task.a as usize;
        machine.jobs[i] = if can_run && rng.once_in(run) {
            running += 1;
            let most = (task.c - 1).min(age);
            let mut held: Vec<u32> = (0..task.a).map(|_| free.swap_remove(rng.index(free.len()))).collect();
            held.sort_unstable();
            let any_ran = rng.range(0, most);
            Job { stage: Stage::Running, age, ran: rng.pick(&[0, most, any_ran]), held }
        } else if rng.once_in(2) {
            Job { stage: Stage::Waiting, age, ran: 0, held: vec![] }
        } else {
            Job { stage: Stage::Idle, age: age.max(1), ran: 0, held: vec![] }
        };
    }
    machine
}

/// Spoils one thing of a good state. It may find nothing to spoil in the way that it draws, and leave the state good.
pub fn spoil(rng: &mut Rng, machine: &mut Machine) {
    let n = machine.table.n.clamp(1, 32) as usize;
    let stage = |k: Stage, m: &Machine| (0..n).filter(|&i| m.jobs[i].stage == k).collect::<Vec<usize>>();
    let running = stage(Stage::Running, machine);
    let idle = stage(Stage::Idle, machine);
    let still: Vec<usize> = (0..n).filter(|&i| !machine.jobs[i].is(Stage::Running)).collect();
    let some = |rng: &mut Rng, of: &[usize]| (!of.is_empty()).then(|| of[rng.index(of.len())]);
    match rng.range(0, 12) {
        0 => tables::spoil(rng, &mut machine.table),
        1 => past_n(rng, machine),
        2 => {
            let i = rng.index(n);
            let above = machine.table.rows[i].t.saturating_add(1);
            machine.jobs[i].age = rng.pick(&[above, above, 65_536, u32::MAX]);
        }
        3 => {
            if let Some(i) = some(rng, &still) {
                let free = free_partitions(machine);
                machine.jobs[i].held = if free.is_empty() { vec![rng.range(0, 63)] } else { vec![rng.pick(&free)] };
            }
        }
        4 => {
            if let Some(i) = some(rng, &still) {
                machine.jobs[i].ran = rng.pick(&[1, 1, 2, u32::MAX]);
            }
        }
        5 => {
            if let Some(i) = some(rng, &idle) {
                machine.jobs[i].age = 0;
            }
        }
        6 => {
            if let Some(i) = some(rng, &running) {
                let task = machine.table.rows[i];
                machine.jobs[i].ran = rng.pick(&[task.c, task.c, task.c.saturating_add(1), u32::MAX]);
                machine.jobs[i].age = machine.jobs[i].age.max(machine.jobs[i].ran.min(task.t));
            }
        }
        7 => {
            if let Some(i) = some(rng, &running) {
                let ran = rng.range(0, machine.table.rows[i].c.saturating_sub(1));
                (machine.jobs[i].ran, machine.jobs[i].age) = (ran, ran.saturating_sub(1));
            }
        }
        8 => {
            if let Some(i) = some(rng, &running) {
                other_count(rng, machine, i);
            }
        }
        9 => {
            let wide: Vec<usize> = running.into_iter().filter(|&i| !machine.jobs[i].held.is_empty()).collect();
            if let (Some(i), true) = (some(rng, &wide), machine.table.p < 64) {
                machine.jobs[i].held.pop();
                let beyond = rng.range(machine.table.p, 63);
                machine.jobs[i].held.push(rng.pick(&[machine.table.p, 63, beyond]));
            }
        }
        10 => shared(rng, machine, &running),
        11 => {
            let running = running.len() as u32;
            machine.table.m = if running > 1 { rng.pick(&[running - 1, running - 1, 1]) } else { machine.table.m };
        }
        _ => {
            let i = rng.index(n);
            machine.jobs[i].stage = rng.pick(&[Stage::Idle, Stage::Waiting, Stage::Running]);
        }
    }
}

fn past_n(rng: &mut Rng, machine: &mut Machine) {
    let n = machine.table.n.clamp(1, 32) as usize;
    if n == ROWS {
        return;
    }
    let i = n + rng.index(ROWS - n);
    let i = rng.pick(&[n, ROWS - 1, i]);
    let (row, job) = (&mut machine.table.rows[i], &mut machine.jobs[i]);
    match rng.range(0, 8) {
        0 => row.d = 1,
        1 => row.t = 1,
        2 => row.c = 1,
        3 => row.a = 1,
        4 => job.stage = Stage::Waiting,
        5 => job.stage = Stage::Running,
        6 => job.age = rng.pick(&[1, u32::MAX]),
        7 => job.ran = 1,
        _ => job.held = vec![rng.range(0, 63)],
    }
}

fn free_partitions(machine: &Machine) -> Vec<u32> {
    let taken: Vec<u32> = machine.jobs.iter().flat_map(|j| j.held.clone()).collect();
    (0..machine.table.p.min(64)).filter(|p| !taken.contains(p)).collect()
}

/// One partition more or fewer than A.
fn other_count(rng: &mut Rng, machine: &mut Machine, i: usize) {
    let free = free_partitions(machine);
    let job = &mut machine.jobs[i];
    if !job.held.is_empty() && (free.is_empty() || rng.once_in(2)) {
        job.held.remove(rng.index(job.held.len()));
    } else if !free.is_empty() {
        job.held.push(rng.pick(&free));
        job.held.sort_unstable();
    }
}

/// Puts a partition of one running job in the place of one of another.
fn shared(rng: &mut Rng, machine: &mut Machine, running: &[usize]) {
    let wide: Vec<usize> = running.iter().copied().filter(|&i| !machine.jobs[i].held.is_empty()).collect();
    if wide.len() < 2 {
        return;
    }
    let (one, other) = (rng.pick(&wide), rng.pick(&wide));
    if one != other {
        let theirs = rng.pick(&machine.jobs[one].held);
        let held = &mut machine.jobs[other].held;
        held.remove(rng.index(held.len()));
        held.push(theirs);
        held.sort_unstable();
    }
}

/// Any numbers at all.
pub fn wild(rng: &mut Rng) -> Machine {
    let mut machine = Machine::zero();
    let mut table = tables::any(rng);
    table.rows.truncate(ROWS);
    machine.table = table;
    for job in &mut machine.jobs {
        job.stage = rng.pick(&[Stage::Idle, Stage::Waiting, Stage::Running]);
        job.age = rng.pick(&[0, 1, 2, 65_535, u32::MAX, u32::MAX]);
        job.ran = rng.pick(&[0, 0, 1, u32::MAX]);
        job.held = partitions_of(rng.pick(&[0, 0, 1, 1 << 63, u64::MAX]));
    }
    machine
}

#[cfg(test)]
mod tests {
    use super::*;
    use crate::draw::reports;

    #[test]
    fn arbitrary_states_are_good_and_good_reports_accepted() {
        let mut rng = Rng::new(3);
        for _ in 0..3000 {
            let state = arbitrary(&mut rng);
            assert!(state.broken().is_empty(), "{state:?}");
            let habit = reports::habit(&mut rng);
            let (released, finished) = reports::acceptable(&mut rng, &state, habit);
            let (next, report) = state.tick(released, finished).unwrap();
            assert!(next.broken().is_empty());
            assert_eq!(report.finished, finished);
            assert_eq!(report.late & !having_jobs(&next), 0);
        }
    }

    /// The tasks that have a job.
    fn having_jobs(machine: &Machine) -> u32 {
        crate::machine::set_of(machine.each().filter(|(_, _, job)| !job.is(Stage::Idle)).map(|(k, _, _)| k))
    }

    #[test]
    fn refusal_14_is_given_exactly_for_a_broken_clause() {
        let mut rng = Rng::new(4);
        for _ in 0..2000 {
            let mut state = arbitrary(&mut rng);
            spoil(&mut rng, &mut state);
            let refused = state.tick(0, 0).err().map(|r| r.number);
            assert_eq!(refused == Some(14), !state.broken().is_empty());
        }
    }
}
