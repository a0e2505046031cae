//! Cases of the machine, on one state that is kept from case to case: S sets it up from a table, T brings it a report,
//! X puts a given state in its place and brings that a report.

use crate::cases_admission::{refused_values, table_values};
use crate::counts::Counts;
use crate::draw::{reports, states, tables};
use crate::files::Pair;
use crate::machine::{number_of, Machine, Stage, CLAUSES};
use crate::records::Value;
use crate::rng::Rng;
use crate::table::Table;
use std::io;

struct Run {
    rng: Rng,
    counts: Counts,
    pair: Pair,
    kept: Machine,
    ticks: u64,
}

/// Ticks are drawn in stretches of this many at most.
const LONGEST: u32 = 300;

impl Run {
    fn set_up(&mut self, table: &Table) -> io::Result<()> {
        let fresh = Machine::fresh(table);
        let refused = fresh.as_ref().err().copied();
        match fresh {
            Ok(machine) => {
                self.kept = machine;
                self.counts.add("set-up");
            }
            Err(_) => self.counts.add("set-up refused"),
        }
        let mut answer = refused_values(refused).to_vec();
        answer.push(Value::Number(self.kept.digest().into()));
        self.pair.write(b'S', &table_values(table), &answer)
    }

    /// Brings the report to the state that is kept; `kind` and `before` say how the case is written.
    fn tick(&mut self, kind: u8, before: Vec<Value>, (released, finished): (u32, u32)) -> io::Result<()> {
        let mut case = before;
        case.extend([released, finished].map(|x| Value::Number(x.into())));
        let outcome = self.kept.tick(released, finished);
        let refused = outcome.as_ref().err().copied();
        let mut answer = refused_values(refused).to_vec();
        let mut sets = [0; 3];
        match outcome {
            Ok((next, report)) => {
                self.kept = next;
                sets = [report.finished, report.late, report.started];
                self.counts.add("tick accepted");
                if self.kept.each().any(|(_, task, job)| job.is(Stage::Waiting) && self.kept.fits(task)) {
                    self.counts.add("tick accepted, a later job would fit");
                }
                for (name, set) in ["jobs finished", "jobs late", "jobs started"].iter().zip(sets) {
                    self.counts.add_many(*name, u64::from(set.count_ones()));
                }
            }
            Err(r) => self.counts.add(format!("tick refused {}", r.number)),
        }
        answer.extend(sets.map(|x| Value::Number(x.into())));
        answer.push(Value::Number(self.kept.digest().into()));
        self.ticks += 1;
        self.pair.write(kind, &case, &answer)
    }

    /// A stretch of ticks on the state that is kept.
    fn stretch(&mut self, length: u32) -> io::Result<()> {
        let habit = reports::habit(&mut self.rng);
        for _ in 0..length {
            let good = self.kept.broken().is_empty();
            let report = if good { reports::any(&mut self.rng, &self.kept, habit) } else { (self.rng.word(), 0) };
            self.tick(b'T', vec![], report)?;
        }
        Ok(())
    }

    /// A tick on a given state: one that a run has reached, an arbitrary good one, either with one or two things
    /// spoiled, or a wild one.
    fn given(&mut self, reached: &Machine) -> io::Result<()> {
        let mut state = if self.rng.once_in(3) { reached.clone() } else { states::arbitrary(&mut self.rng) };
        let habit = reports::habit(&mut self.rng);
        let report = reports::any(&mut self.rng, &state, habit);
        match self.rng.range(0, 9) {
            0..=2 => {}
            9 => state = states::wild(&mut self.rng),
            8 => (0..2).for_each(|_| states::spoil(&mut self.rng, &mut state)),
            _ => states::spoil(&mut self.rng, &mut state),
        }
        let broken = state.broken();
        match broken.len() {
            0 => self.counts.add("given state good"),
            1 => self.counts.add(format!("given state breaks only {:?}", broken.first().unwrap())),
            _ => self.counts.add("given state breaks several clauses"),
        }
        let mut values = table_values(&state.table);
        for job in &state.jobs {
            let numbers = [i128::from(job.stage as u32), job.age.into(), job.ran.into(), number_of(&job.held).into()];
            values.extend(numbers.map(Value::Number));
        }
        self.kept = state;
        self.tick(b'X', values, report)
    }
}

/// Writes cases with `count_of` ticks; the answer is false if some outcome is met too seldom to say that it was tried.
pub fn write(count_of: u64, seed: u64, pair: Pair) -> io::Result<bool> {
    let mut run = Run { rng: Rng::new(seed), counts: Counts::default(), pair, kept: Machine::zero(), ticks: 0 };
    run.tick(b'T', vec![], (0, 0))?;
    while run.ticks < count_of {
        if run.rng.once_in(4) {
            let refused = tables::damaged(&mut run.rng);
            run.set_up(&refused)?;
        }
        let mut table = states::busy_table(&mut run.rng);
        tables::fill(&mut run.rng, &mut table);
        run.set_up(&table)?;
        let length = run.rng.range(1, LONGEST);
        run.stretch(length)?;
        let reached = run.kept.clone();
        for _ in 0..run.rng.range(0, 24) {
            run.given(&reached)?;
            if run.rng.once_in(4) {
                run.stretch(3)?;
            }
        }
    }
    println!("{} ticks:", run.ticks);
    run.counts.print();
    run.pair.close()?;
    let mut wanted: Vec<String> = (9..=14).map(|number| format!("tick refused {number}")).collect();
    wanted.extend(["tick accepted", "tick accepted, a later job would fit"].map(String::from));
    wanted.extend(["jobs finished", "jobs late", "jobs started", "given state good"].map(String::from));
    let clauses: Vec<String> = CLAUSES.iter().map(|clause| format!("given state breaks only {clause:?}")).collect();
    let names = |of: &[String], least| {
        let of: Vec<&str> = of.iter().map(String::as_str).collect();
        run.counts.rarer(&of, least).join(", ")
    };
    let rare = [names(&wanted, count_of / 200), names(&clauses, count_of / 2000)].concat();
    if !rare.is_empty() {
        println!("met too seldom: {rare}");
    }
    Ok(rare.is_empty())
}
