//! Cases of kind R: a table, and its rehearsal.

use crate::admission::full;
use crate::cases_admission::{refused_values, table_values};
use crate::counts::Counts;
use crate::draw::rehearsals;
use crate::files::Pair;
use crate::records::Value;
use crate::rehearsal::{multiple, run, Rehearsal, MOST};
use crate::rng::Rng;
use crate::table::{Refused, Row, Table, ROWS};
use std::io;

fn answer_values(shown: &Result<Rehearsal, Refused>) -> Vec<Value> {
    let mut all = refused_values(shown.as_ref().err().copied()).to_vec();
    let nothing = Rehearsal::default();
    let shown = shown.as_ref().unwrap_or(&nothing);
    all.extend([shown.tick, shown.task()].map(|x| Value::Number(x.into())));
    let started = shown.started.iter().copied().chain(std::iter::repeat(0)).take(ROWS);
    all.extend(started.map(|x| Value::Number(x.into())));
    all
}

/// What has to be met, and how often at least in ten thousand tables.
const WANTED: [(&str, u64); 39] = [
    ("refused 1", 50),
    ("refused 2", 50),
    ("refused 3", 50),
    ("refused 4", 50),
    ("refused 5", 50),
    ("refused 6", 50),
    ("refused 7", 50),
    ("refused 8", 50),
    ("refused for a row, the multiple above 1,000,000", 50),
    ("refused 17, the multiple 1,000,001", 50),
    ("refused 17, at most 1,001,000", 50),
    ("refused 17, above 1,000,000,000", 50),
    ("refused 17, the periods' product past 2^64", 50),
    ("refused 17, the multiple past 2^64", 50),
    ("refused 17, 32 bits hold a small number", 10),
    ("refused 17, 64 bits hold a small number", 10),
    ("the periods' product past 2^64, not refused", 50),
    ("a multiple from 100,000 on", 50),
    ("the multiple 1,000,000, none late", 5),
    ("the multiple 1,000,000, late", 5),
    ("late from tick 10,000 on", 5),
    ("late at the multiple", 50),
    ("late before the multiple, D = T", 50),
    ("late, D < T", 50),
    ("late, several tasks", 50),
    ("late, task 1", 50),
    ("late, the last task", 50),
    ("late, and a job would start in that tick", 50),
    ("late at tick 1", 50),
    ("none late, 1 task", 50),
    ("none late, 32 tasks", 50),
    ("none late, a period of 1", 50),
    ("none late, a job waited for a core", 50),
    ("none late, a job waited for partitions", 50),
    ("none late, a later job would have fit", 50),
    ("none late, a job finished at its deadline", 50),
    ("none late, not admitted", 50),
    ("none late, admitted", 50),
    ("rows past n that are not zero", 50),
];

/// Whether the periods of a table multiply to more than 64 bits hold.
fn product_past_64_bits(table: &Table) -> bool {
    table.tasks().iter().try_fold(1u64, |product, task| product.checked_mul(task.t.into())).is_none()
}

fn count_refused(counts: &mut Counts, table: &Table, refused: Refused) {
    if refused.number != 17 {
        counts.add(format!("refused {}", refused.number));
        let periods_good = refused.at > 0 && table.tasks().iter().all(|task| (1..=65_535).contains(&task.t));
        if periods_good && multiple(table) > MOST {
            counts.add("refused for a row, the multiple above 1,000,000");
        }
        return;
    }
    let multiple = multiple(table);
    for (what, is_so) in [
        ("the multiple 1,000,001", multiple == 1_000_001),
        ("at most 1,001,000", multiple <= 1_001_000),
        ("above 1,000,000,000", multiple > 1_000_000_000),
        ("the periods' product past 2^64", product_past_64_bits(table)),
        ("the multiple past 2^64", multiple > u64::MAX.into()),
        ("32 bits hold a small number", multiple % (1 << 32) <= MOST),
        ("64 bits hold a small number", multiple % (1 << 64) <= MOST),
    ] {
        if is_so {
            counts.add(format!("refused 17, {what}"));
        }
    }
}

fn count_late(counts: &mut Counts, table: &Table, shown: &Rehearsal) {
    let lowest = table.rows[shown.task() as usize - 1];
    let at_the_multiple = u128::from(shown.tick) == multiple(table);
    counts.add("late");
    for (what, is_so) in [
        ("late from tick 10,000 on", shown.tick >= 10_000),
        ("late at the multiple", at_the_multiple),
        ("late before the multiple, D = T", !at_the_multiple && lowest.d == lowest.t),
        ("late, D < T", lowest.d < lowest.t),
        ("late, several tasks", shown.late.len() > 1),
        ("late, task 1", shown.task() == 1),
        ("late, the last task", table.n > 1 && shown.task() == table.n),
        ("late, and a job would start in that tick", shown.met.cut_off),
        ("late at tick 1", shown.tick == 1),
    ] {
        if is_so {
            counts.add(what);
        }
    }
}

fn count_none_late(counts: &mut Counts, table: &Table, shown: &Rehearsal) {
    let admitted = full(table).admitted;
    for (what, is_so) in [
        ("1 task", table.n == 1),
        ("32 tasks", table.n == 32),
        ("a period of 1", table.tasks().iter().any(|task| task.t == 1)),
        ("a job waited for a core", shown.met.no_core),
        ("a job waited for partitions", shown.met.no_partitions),
        ("a later job would have fit", shown.met.held_back),
        ("a job finished at its deadline", shown.met.just_in_time),
        ("admitted", admitted),
        ("not admitted", !admitted),
    ] {
        if is_so {
            counts.add(format!("none late, {what}"));
        }
    }
}

fn count(counts: &mut Counts, table: &Table, shown: &Result<Rehearsal, Refused>) {
    if table.n < ROWS as u64 && table.rows[table.n as usize..].iter().any(|row| *row != Row::default()) {
        counts.add("rows past n that are not zero");
    }
    let shown = match shown {
        Ok(shown) => shown,
        Err(refused) => return count_refused(counts, table, *refused),
    };
    let late = if shown.late.is_empty() { "none late" } else { "late" };
    for (what, is_so) in [
        ("the periods' product past 2^64, not refused".to_string(), product_past_64_bits(table)),
        ("a multiple from 100,000 on".to_string(), multiple(table) >= 100_000),
        (format!("the multiple 1,000,000, {late}"), multiple(table) == MOST),
    ] {
        if is_so {
            counts.add(what);
        }
    }
    if shown.late.is_empty() {
        count_none_late(counts, table, shown);
    } else {
        count_late(counts, table, shown);
        assert!(!full(table).admitted, "an admitted table is late on the bench: {table:?}");
    }
}

/// Every table of up to three tasks with short periods; the answer is how many there are.
fn write_every(pair: &mut Pair) -> io::Result<u64> {
    for (tasks, longest) in [(1, 12), (2, 5), (3, 3)] {
        for table in rehearsals::every(tasks, longest) {
            pair.write(b'R', &table_values(&table), &answer_values(&run(&table)))?;
        }
    }
    Ok(pair.written)
}

/// Writes the cases; the answer is false if some ending is met too seldom, among those drawn, to say that it was tried.
pub fn write(count_of: u64, seed: u64, mut pair: Pair) -> io::Result<bool> {
    let mut rng = Rng::new(seed);
    let mut counts = Counts::default();
    let every = write_every(&mut pair)?;
    for _ in 0..count_of {
        let table = rehearsals::any(&mut rng);
        let shown = run(&table);
        count(&mut counts, &table, &shown);
        pair.write(b'R', &table_values(&table), &answer_values(&shown))?;
    }
    println!("{every} tables, all of 1, 2 and 3 tasks with periods up to 12, 5 and 3 on 1 or 2 cores and 1 partition,");
    println!("and {count_of} drawn:");
    counts.print();
    pair.close()?;
    let rare: Vec<&str> =
        WANTED.iter().flat_map(|(name, least)| counts.rarer(&[name], least * count_of / 10_000)).collect();
    if !rare.is_empty() {
        println!("met too seldom: {}", rare.join(", "));
    }
    Ok(rare.is_empty())
}
