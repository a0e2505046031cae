//! Cases of kind A: a table, and both admission answers.

use crate::admission::{full, quick};
use crate::counts::Counts;
use crate::draw::tables;
use crate::files::Pair;
use crate::records::Value;
use crate::rng::Rng;
use crate::table::{Refused, Row, Table, ROWS};
use std::io;

/// n, M, P and 32 rows.
pub fn table_values(table: &Table) -> Vec<Value> {
    let mut all = vec![Value::Number(table.n.into()), Value::Number(table.m.into()), Value::Number(table.p.into())];
    for row in table.rows.iter().copied().chain(std::iter::repeat(Row::default())).take(ROWS) {
        all.extend([row.d, row.t, row.c, row.a].map(|x| Value::Number(x.into())));
    }
    all
}

/// Number and row, 0 and 0 where nothing is refused.
pub fn refused_values(refused: Option<Refused>) -> [Value; 2] {
    let (number, at) = refused.map_or((0, 0), |r| (r.number, r.at));
    [Value::Number(number.into()), Value::Number(at.into())]
}

fn answer_values(table: &Table) -> Vec<Value> {
    let (full, quick) = (full(table), quick(table));
    let mut all = refused_values(full.refused).to_vec();
    all.extend([Value::Number(full.admitted.into()), Value::Number(full.first.into())]);
    let margins = full.margins.iter().copied().chain(std::iter::repeat(0)).take(ROWS);
    all.extend(margins.map(|x| Value::Number(x.into())));
    all.extend(refused_values(quick.refused));
    all.extend([Value::Number(quick.admitted.into()), Value::Number(quick.first.into())]);
    all
}

const OUTCOMES: [&str; 13] = [
    "admitted",
    "not admitted",
    "refused 1",
    "refused 2",
    "refused 3",
    "refused 4",
    "refused 5",
    "refused 6",
    "refused 7",
    "refused 8",
    "a margin of -1",
    "a margin of 0",
    "a margin of 1",
];

fn count(counts: &mut Counts, table: &Table) {
    let answer = full(table);
    match answer.refused {
        Some(r) => counts.add(format!("refused {}", r.number)),
        None if answer.admitted => counts.add("admitted"),
        None => counts.add("not admitted"),
    }
    for x in [-1, 0, 1] {
        if answer.margins.contains(&x) {
            counts.add(format!("a margin of {x}"));
        }
    }
    if let Some(least) = answer.margins.iter().min().filter(|&&x| x > 0) {
        if *least <= i64::from(table.m) * i64::from(table.p) {
            counts.add("admitted, least margin at most M times P");
        }
    }
    if answer.refused.is_none() && table.n == 32 {
        counts.add("32 tasks, not refused");
    }
}

/// Writes the cases; the answer is false if some outcome is met too seldom to say that it was tried.
pub fn write(count_of: u64, seed: u64, mut pair: Pair) -> io::Result<bool> {
    let mut rng = Rng::new(seed);
    let mut counts = Counts::default();
    while pair.written < count_of {
        let table = tables::any(&mut rng);
        count(&mut counts, &table);
        pair.write(b'A', &table_values(&table), &answer_values(&table))?;
    }
    println!("{} tables:", pair.written);
    counts.print();
    pair.close()?;
    let rare = counts.rarer(&OUTCOMES, count_of / 100);
    if !rare.is_empty() {
        println!("met less than once in a hundred tables: {}", rare.join(", "));
    }
    Ok(rare.is_empty())
}
