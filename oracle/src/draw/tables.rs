//! Tables: good ones, ones at the edge of admission, ones at each limit, damaged ones and wild ones.

use crate::admission::margin;
use crate::rng::Rng;
use crate::table::{Row, Table, ROWS};

/// Numbers at which a width or a limit changes.
const SPECIAL: [u32; 27] = [
    0,
    1,
    2,
    3,
    15,
    16,
    17,
    31,
    32,
    33,
    63,
    64,
    65,
    255,
    256,
    257,
    65_534,
    65_535,
    65_536,
    65_537,
    0x7fff_ffff,
    0x8000_0000,
    0x8000_0001,
    0xffff_0000,
    0xffff_ffef,
    0xffff_fffe,
    0xffff_ffff,
];

const SPECIAL_COUNTS: [u64; 15] =
    [0, 1, 2, 31, 32, 33, 34, 64, 65, 255, 256, 0xffff_ffff, 0x1_0000_0000, 0x1_0000_0001, 0xffff_ffff_ffff_ffff];

/// A table of one of the families, with rows past n as in a record that was used before.
pub fn any(rng: &mut Rng) -> Table {
    let mut table = match rng.range(0, 99) {
        0..=14 => loose(rng),
        15..=44 => edge(rng),
        45..=59 => tiny(rng),
        60..=71 => limits(rng),
        72..=89 => damaged(rng),
        90..=94 => wild(rng),
        _ => largest(rng),
    };
    fill(rng, &mut table);
    table
}

/// Brings the rows to 32: zeros, or what an earlier use left there.
pub fn fill(rng: &mut Rng, table: &mut Table) {
    let left_over = rng.once_in(2);
    while table.rows.len() < ROWS {
        let row = if left_over { wild_row(rng) } else { Row::default() };
        table.rows.push(row);
    }
}

fn count(rng: &mut Rng) -> usize {
    if rng.once_in(3) {
        rng.range(1, 32) as usize
    } else {
        rng.range(1, 6) as usize
    }
}

fn good_row(rng: &mut Rng, p: u32, longest: u32) -> Row {
    let t = rng.scaled(1, longest);
    let d = if rng.once_in(3) { t } else { rng.range(1, t) };
    let c = if rng.once_in(2) { rng.scaled(1, d) } else { rng.range(1, d) };
    Row { d, t, c, a: rng.scaled(0, p) }
}

/// A good table with nothing else asked.
pub fn loose(rng: &mut Rng) -> Table {
    let (m, p) = (rng.scaled(1, 16), rng.scaled(1, 64));
    let longest = rng.pick(&[10, 100, 1_000, 65_535]);
    let rows = (0..count(rng)).map(|_| good_row(rng, p, longest)).collect::<Vec<_>>();
    Table { n: rows.len() as u64, m, p, rows }
}

/// Small numbers and few cores, where a margin at the edge often is -1, 0 or 1.
pub fn tiny(rng: &mut Rng) -> Table {
    let (m, p) = (rng.pick(&[1, 1, 1, 2, 3]), rng.pick(&[1, 1, 2, 3]));
    let rows = (0..rng.range(1, 3))
        .map(|_| {
            let t = rng.range(1, 40);
            let c = rng.range(1, t.min(3));
            Row { d: rng.range(c, t), t, c, a: rng.range(0, p) }
        })
        .collect::<Vec<_>>();
    let mut table = Table { n: rows.len() as u64, m, p, rows };
    for k in 1..=table.rows.len() {
        if let Some(s) = least_slack(&table, k) {
            let row = &mut table.rows[k - 1];
            row.d = (row.c + (s + rng.range(0, 4)).saturating_sub(2)).min(row.t);
        }
    }
    table
}

/// The least slack with which task k (from 1) would pass, other numbers being as they are. The load does not fall as
/// the slack rises, so the least one is reached from below.
fn least_slack(table: &Table, k: usize) -> Option<u32> {
    let mut t = table.clone();
    let row = &table.rows[k - 1];
    let widest = table.rows[..k].iter().map(|i| i.a).max().unwrap();
    let step = i128::from(table.m) * i128::from(table.p - widest + 1);
    let mut s: u32 = 0;
    loop {
        if row.c + s > row.t {
            return None;
        }
        t.rows[k - 1].d = row.c + s;
        let short = margin(&t, k);
        if short > 0 {
            return Some(s);
        }
        s += u32::try_from(-short / step + 1).ok()?;
    }
}

/// How far a deadline lies from the shortest with which its task passes.
#[derive(Clone, Copy, Debug, PartialEq, Eq)]
pub enum Edge {
    /// Every task just passes.
    Within,
    /// One task has a tick too few, the others just pass.
    OneShort,
    /// Every slack is so many hundredths of the least with which the task passes.
    Share(u32),
}

/// The table with its deadlines put at the edge of admission; none where some task cannot pass within its period. A
/// margin hangs on the deadline of its own task alone, so each can be put at its edge.
pub fn at_edge(rng: &mut Rng, mut table: Table, edge: Edge) -> Option<Table> {
    let least: Vec<u32> = (1..=table.rows.len()).map(|k| least_slack(&table, k)).collect::<Option<_>>()?;
    let short = rng.index(table.rows.len());
    for (i, row) in table.rows.iter_mut().enumerate() {
        let s = match edge {
            Edge::OneShort if i == short => least[i].saturating_sub(1),
            Edge::Share(hundredths) => least[i] * hundredths / 100,
            _ => least[i],
        };
        row.d = row.c + s;
    }
    Some(table)
}

/// Every task has the shortest deadline with which it passes, or one near it.
pub fn edge(rng: &mut Rng) -> Table {
    for tries in 1..=8 {
        let n = count(rng);
        let table = light(rng, n, tries);
        let how = rng.range(0, 5);
        let edge = if how == 2 { Edge::OneShort } else { Edge::Within };
        let Some(mut table) = at_edge(rng, table.clone(), edge) else {
            if tries < 8 {
                continue;
            }
            return Table { rows: table.rows.iter().map(|row| Row { d: row.t, ..*row }).collect(), ..table };
        };
        for row in &mut table.rows {
            row.d = match how {
                0..=2 => row.d,
                3 => (row.d + 1).min(row.t),
                4 => (row.d + rng.range(0, 2)).saturating_sub(1).clamp(row.c, row.t),
                _ => rng.range(row.d, row.t),
            };
        }
        return table;
    }
    unreachable!("the eighth try is taken")
}

/// A table in which one task does not pass, for want of one tick; half of the time there are 32.
pub fn one_short(rng: &mut Rng) -> Table {
    let n = if rng.once_in(2) { ROWS } else { rng.range(1, 32) as usize };
    let mut tries = 1..;
    loop {
        let table = light(rng, n, tries.next().unwrap());
        if let Some(table) = at_edge(rng, table, Edge::OneShort) {
            return table;
        }
    }
}

/// Long periods and short runs: the more `tries`, the lighter.
fn light(rng: &mut Rng, n: usize, tries: u32) -> Table {
    let (m, p) = (rng.range(1, 16), rng.range(1, 64));
    let shortest = rng.scaled(20 * tries, 8_000);
    lightly(rng, m, p, n, shortest, (2 + 2 * tries, 6 + 2 * tries))
}

/// A table of small numbers, light enough that most can be admitted, so that a machine comes round in few ticks.
pub fn short(rng: &mut Rng) -> Table {
    let (m, p, n) = (rng.range(1, 4), rng.range(1, 8), rng.range(1, 7) as usize);
    let shortest = rng.range(8, 60);
    lightly(rng, m, p, n, shortest, (3, 12))
}

/// Periods from `shortest` on, and runs that together take about one part in `parts` of what the platform can carry in
/// the shortest.
fn lightly(rng: &mut Rng, m: u32, p: u32, n: usize, shortest: u32, parts: (u32, u32)) -> Table {
    let widest = rng.scaled(0, p);
    let most = rng.range(1, 8);
    let mut rows = vec![Row { d: 1, t: 1, c: 1, a: 0 }; n];
    for row in &mut rows {
        row.a = rng.scaled(0, widest);
        row.t = rng.range(shortest, (shortest * most).min(65_535));
    }
    let b = u64::from(p - rows.iter().map(|i| i.a).max().unwrap() + 1);
    let part = u64::from(rng.range(parts.0, parts.1));
    for row in &mut rows {
        let weight = b.max(u64::from(m) * u64::from(row.a));
        let share = u64::from(m) * b * u64::from(shortest) / (part * n as u64 * weight);
        row.c = rng.range(1, (share.max(1) as u32).min(row.t));
    }
    Table { n: n as u64, m, p, rows }
}

fn around(rng: &mut Rng, low: u32, high: u32) -> u32 {
    let near = [low.saturating_sub(1), low, low, low + 1, high.saturating_sub(1), high, high, high.saturating_add(1)];
    rng.pick(&near)
}

/// Each quantity at, just below or just above one of its limits; most of them good.
pub fn limits(rng: &mut Rng) -> Table {
    let n: u32 = rng.pick(&[0, 1, 1, 2, 2, 3, 31, 32, 32, 33, 34]);
    let often = rng.pick(&[2, 4, 16, 100, 1000]);
    let m = if rng.once_in(often) { around(rng, 1, 16) } else { rng.pick(&[1, 2, 15, 16]) };
    let p = if rng.once_in(often) { around(rng, 1, 64) } else { rng.pick(&[1, 2, 63, 64]) };
    let rows = (0..n.min(32))
        .map(|_| {
            let t = if rng.once_in(often) { around(rng, 1, 65_535) } else { rng.pick(&[1, 2, 3, 65_534, 65_535]) };
            let d = if rng.once_in(often) { around(rng, t / 2, t) } else { rng.pick(&[t, t, t / 2 + 1, t]) };
            let c = if rng.once_in(often) { around(rng, 1, d) } else { rng.pick(&[1, d, 1, d.max(2) - 1]) };
            let a = if rng.once_in(often) { around(rng, 1, p) } else { rng.pick(&[0, 1, p, p / 2]) };
            Row { d, t, c, a }
        })
        .collect();
    Table { n: u64::from(n), m, p, rows }
}

/// A good table of which one to three numbers are spoiled so that a refusal is earned.
pub fn damaged(rng: &mut Rng) -> Table {
    let n = count(rng);
    let mut table = if rng.once_in(2) { loose(rng) } else { light(rng, n, 2) };
    for row in &mut table.rows {
        row.d = row.d.max(row.c);
    }
    for _ in 0..rng.pick(&[1, 1, 1, 2, 3]) {
        spoil(rng, &mut table);
    }
    table
}

pub fn spoil(rng: &mut Rng, table: &mut Table) {
    let at = rng.index(table.rows.len().min(table.n as usize).max(1));
    let p = table.p;
    let row = &mut table.rows[at];
    match rng.range(1, 8) {
        1 => table.n = rng.pick(&[0, 0, 33, 33, 34, 64, 1 << 32, u64::MAX, (1 << 32) + 1]),
        2 => table.m = rng.pick(&[0, 17, 18, 32, 256, 65_537, u32::MAX]),
        3 => table.p = rng.pick(&[0, 65, 66, 128, 256, 65_537, u32::MAX]),
        4 => row.t = rng.pick(&[0, 65_536, 65_537, 131_071, u32::MAX]),
        5 => row.c = 0,
        6 => row.c = rng.pick(&[row.d.saturating_add(1), row.d.saturating_add(2), u32::MAX]),
        7 => row.d = rng.pick(&[row.t.saturating_add(1), row.t.saturating_add(1), 65_536.max(row.t), u32::MAX]),
        _ => row.a = rng.pick(&[p.saturating_add(1), p.saturating_add(1), p.saturating_add(2), u32::MAX]),
    }
}

fn wild_row(rng: &mut Rng) -> Row {
    let mut number = || if rng.once_in(4) { rng.word() } else { rng.pick(&SPECIAL) };
    Row { d: number(), t: number(), c: number(), a: number() }
}

/// Any numbers at all.
pub fn wild(rng: &mut Rng) -> Table {
    let n = if rng.once_in(3) { u64::from(rng.range(1, 32)) } else { rng.pick(&SPECIAL_COUNTS) };
    let m = if rng.once_in(2) { rng.range(1, 16) } else { rng.pick(&SPECIAL) };
    let p = if rng.once_in(2) { rng.range(1, 64) } else { rng.pick(&SPECIAL) };
    let everywhere = rng.once_in(16);
    let rows = (0..ROWS).map(|_| wild_row(rng)).collect();
    let mut table = Table { n, m, p, rows };
    if everywhere {
        table.rows = vec![Row { d: u32::MAX, t: u32::MAX, c: u32::MAX, a: u32::MAX }; ROWS];
    }
    table
}

/// Where the sums are largest: most tasks, cores and partitions, the longest slack, the shortest periods or the longest
/// runs.
pub fn largest(rng: &mut Rng) -> Table {
    let n = rng.pick(&[1, 2, 31, 32, 32, 32]);
    let (m, p) = (rng.pick(&[16, 16, 15, 1]), rng.pick(&[64, 64, 63, 1]));
    let rows = (0..n)
        .map(|_| {
            let a = rng.pick(&[0, 1, p - 1, p, p]);
            match rng.range(0, 4) {
                0 => Row { d: 65_535, t: 65_535, c: 1, a },
                1 => Row { d: 1, t: 1, c: 1, a },
                2 => Row { d: 65_535, t: 65_535, c: 65_535, a },
                3 => Row { d: 65_535, t: 65_535, c: rng.range(1, 65_535), a },
                _ => {
                    let t = rng.range(1, 300);
                    Row { d: t, t, c: rng.range(1, t), a }
                }
            }
        })
        .collect::<Vec<_>>();
    Table { n: rows.len() as u64, m, p, rows }
}

#[cfg(test)]
mod tests {
    use super::*;
    use crate::admission::full;

    #[test]
    fn edge_tables_are_good_and_many_are_at_the_edge() {
        let mut rng = Rng::new(5);
        let (mut admitted, mut turned_down) = (0, 0);
        for _ in 0..2000 {
            let t = edge(&mut rng);
            let f = full(&t);
            assert_eq!(f.refused, None);
            let mut closer = t.clone();
            closer.rows.iter_mut().for_each(|r| r.d = (r.d - 1).max(r.c));
            if f.admitted {
                admitted += 1;
            } else if !full(&closer).admitted {
                turned_down += 1;
            }
        }
        assert!(admitted > 500 && turned_down > 300, "{admitted} {turned_down}");
    }

    #[test]
    fn one_task_alone_does_not_pass() {
        let mut rng = Rng::new(8);
        let mut firsts = std::collections::BTreeSet::new();
        for _ in 0..3000 {
            let answer = crate::admission::full(&one_short(&mut rng));
            assert_eq!(answer.margins.iter().filter(|&&x| x <= 0).count(), 1);
            firsts.insert(answer.first);
        }
        assert_eq!(firsts.len(), 32);
    }

    #[test]
    fn least_slack_is_least() {
        let mut rng = Rng::new(6);
        for _ in 0..300 {
            let n = count(&mut rng);
            let mut t = light(&mut rng, n, 1);
            for k in 1..=t.rows.len() {
                let (c, longest) = (t.rows[k - 1].c, t.rows[k - 1].t);
                let passes: Vec<u32> = (0..=(longest - c).min(400))
                    .filter(|s| {
                        t.rows[k - 1].d = c + s;
                        margin(&t, k) > 0
                    })
                    .collect();
                let least = least_slack(&t, k).filter(|&s| s <= 400);
                assert_eq!(least, passes.first().copied());
            }
        }
    }
}
