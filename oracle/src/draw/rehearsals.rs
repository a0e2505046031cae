//! Tables for the bench: periods of a chosen least common multiple, and work that the platform just carries or just
//! does not.

use crate::draw::tables::{self, at_edge, Edge};
use crate::rehearsal::{self, prime_powers};
use crate::rng::Rng;
use crate::table::{Row, Table, ROWS};

const LONGEST: u32 = 65_535;

/// Multiples with many divisors, so that many different periods go together.
const SMALL: [u32; 12] = [2, 6, 12, 24, 60, 72, 120, 360, 840, 1_260, 2_520, 5_040];

/// A table of one of the families, with rows past n as in a record that was used before.
pub fn any(rng: &mut Rng) -> Table {
    let mut table = match rng.range(0, 999) {
        0..=249 => small(rng),
        250..=429 => pressed(rng),
        430..=519 => equal(rng),
        520..=579 => ones(rng),
        580..=619 => many(rng),
        620..=649 => single(rng),
        650..=719 => admitted(rng),
        720..=729 => large(rng),
        730..=734 => meeting(rng),
        735..=737 => million(rng),
        738..=772 => above(rng),
        773..=778 => wrapped(rng),
        779..=828 => far(rng),
        829..=948 => tables::damaged(rng),
        _ => tables::any(rng),
    };
    tables::fill(rng, &mut table);
    table
}

/// Every row with a period up to the longest, for one partition.
fn every_row(longest: u32) -> Vec<Row> {
    let mut all = vec![];
    for t in 1..=longest {
        for d in 1..=t {
            all.extend((1..=d).flat_map(|c| [0, 1].map(|a| Row { d, t, c, a })));
        }
    }
    all
}

/// Every table of so many tasks with periods up to the longest, on 1 and on 2 cores and with one partition.
pub fn every(tasks: usize, longest: u32) -> Vec<Table> {
    let mut all = vec![vec![]];
    for _ in 0..tasks {
        let with = |row: &Row| all.iter().map(|rows: &Vec<Row>| [&rows[..], &[*row]].concat()).collect::<Vec<_>>();
        all = every_row(longest).iter().flat_map(with).collect();
    }
    let on = |m: u32| move |rows: &Vec<Row>| Table { n: tasks as u64, m, p: 1, rows: rows.clone() };
    all.iter().map(on(1)).chain(all.iter().map(on(2))).collect()
}

/// Periods with this least common multiple, for n tasks; none where it does not go into them as they are drawn. Of each
/// prime one task has the whole power, and the others any.
fn periods(rng: &mut Rng, whole: u32, n: usize) -> Option<Vec<u32>> {
    let mut all = vec![1; n];
    for (prime, power) in prime_powers(whole) {
        let most = |period: u32| LONGEST / period;
        let able: Vec<usize> = (0..n).filter(|&i| power <= most(all[i])).collect();
        let owner = *able.get(rng.index(able.len().max(1)))?;
        for (i, period) in all.iter_mut().enumerate() {
            let mut share = if i == owner { power } else { 1 };
            while share < power && share * prime <= most(*period) && !rng.once_in(3) {
                share *= prime;
            }
            *period *= share;
        }
    }
    Some(all)
}

/// How work and deadlines are drawn.
#[derive(Clone, Copy)]
struct Load {
    /// Of a hundred ticks of all cores, about so many are asked for.
    hundredths: u32,
    /// No run is longer than so many times the shortest period.
    times_shortest: u32,
}

fn load(rng: &mut Rng) -> Load {
    Load { hundredths: rng.pick(&[5, 20, 40, 60, 80, 100, 150]), times_shortest: rng.pick(&[1, 1, 1, 2, 20]) }
}

/// Good rows with these periods, in this order or the shortest first.
fn table_of(rng: &mut Rng, (m, p): (u32, u32), mut periods: Vec<u32>, load: Load) -> Table {
    let shortest = periods.iter().copied().min().unwrap_or(1);
    if rng.once_in(2) {
        periods.sort_unstable();
    }
    let widest = rng.scaled(0, p);
    let (n, tight) = (periods.len() as u64, rng.once_in(4));
    let row = |t: u32| {
        let share = u64::from(t) * u64::from(m) * u64::from(load.hundredths) / (100 * n);
        let most = share.min(u64::from(shortest * load.times_shortest)).min(u64::from(t)).max(1) as u32;
        let c = rng.range(most.div_ceil(2), most);
        let d = match rng.range(0, 3) {
            0 if tight => (c + rng.range(0, 3)).min(t),
            0 => rng.range(c, t),
            1 => rng.range(c.max(t / 2), t),
            _ => t,
        };
        Row { d, t, c, a: rng.range(0, widest) }
    };
    let rows = periods.into_iter().map(row).collect();
    Table { n, m, p, rows }
}

fn platform(rng: &mut Rng) -> (u32, u32) {
    let m = if rng.once_in(3) { rng.range(1, 16) } else { rng.range(1, 4) };
    (m, rng.scaled(1, 64))
}

fn count(rng: &mut Rng) -> usize {
    if rng.once_in(5) {
        rng.range(1, 32) as usize
    } else {
        rng.range(1, 6) as usize
    }
}

/// A multiple of up to some thousand and any work.
pub fn small(rng: &mut Rng) -> Table {
    let (whole, n) = (rng.pick(&SMALL), count(rng));
    let periods = periods(rng, whole, n).expect("a small multiple goes into any count of periods");
    let (platform, load) = (platform(rng), load(rng));
    table_of(rng, platform, periods, load)
}

fn none_late(table: &Table) -> bool {
    rehearsal::run(table).is_ok_and(|shown| shown.late.is_empty())
}

/// A small table made harder step by step, by a longer run or a shorter deadline, until some job is late; this table or
/// the last one before it.
fn pressed(rng: &mut Rng) -> Table {
    let mut table = small(rng);
    while !none_late(&table) && table.rows.iter().any(|row| row.c > 1) {
        table.rows.iter_mut().for_each(|row| row.c = row.c.div_ceil(2));
    }
    let stops_before = rng.once_in(2);
    for _ in 0..8 {
        let mut harder = table.clone();
        let row = &mut harder.rows[rng.index(table.rows.len())];
        let spare = row.d - row.c;
        let step = rng.range(0, spare.div_ceil(2));
        if rng.once_in(2) {
            row.c += step;
        } else {
            row.d -= step;
        }
        if none_late(&harder) {
            table = harder;
        } else if !stops_before {
            return harder;
        }
    }
    table
}

/// One period for all tasks, and about as much work as it has ticks: the deadlines are the multiple itself.
fn equal(rng: &mut Rng) -> Table {
    let (t, n, m, p) = (rng.range(1, 40), rng.range(1, 12), rng.range(1, 3), rng.range(1, 8));
    let most = (2 * t * m / n).clamp(1, t);
    let widest = rng.range(0, p);
    let row = |_| {
        let c = rng.range(most.div_ceil(2), most);
        let d = if rng.once_in(8) { rng.range(c, t) } else { t };
        Row { d, t, c, a: rng.range(0, widest) }
    };
    let rows = (0..n).map(row).collect();
    Table { n: n.into(), m, p, rows }
}

/// Some first tasks are released in every tick, and there is more than a core for each.
fn ones(rng: &mut Rng) -> Table {
    let mut table = small(rng);
    let each_tick = rng.range(1, 3).min(ROWS as u32 - table.rows.len() as u32).max(1) as usize;
    table.m = table.m.clamp(each_tick as u32 + 1, 16);
    table.p = table.p.max(16);
    let row = Row { d: 1, t: 1, c: 1, a: rng.range(0, 3) };
    table.rows.splice(0..0, vec![row; each_tick]);
    table.rows.truncate(ROWS);
    table.n = table.rows.len() as u64;
    table
}

/// 32 tasks with little work.
fn many(rng: &mut Rng) -> Table {
    let whole = rng.pick(&SMALL[4..]);
    let periods = periods(rng, whole, ROWS).expect("a small multiple goes into 32 periods");
    let (m, p) = (rng.range(8, 16), rng.range(16, 64));
    let mut table = table_of(rng, (m, p), periods, Load { hundredths: 40, times_shortest: 1 });
    let widest = rng.range(0, p / m);
    table.rows.iter_mut().for_each(|row| row.a = row.a.min(widest));
    table
}

/// One task, of any period.
fn single(rng: &mut Rng) -> Table {
    let t = rng.scaled(1, LONGEST);
    let d = rng.range(1, t);
    let d = rng.pick(&[d, t]);
    let (m, p) = platform(rng);
    Table { n: 1, m, p, rows: vec![Row { d, t, c: rng.range(1, d), a: rng.range(0, p) }] }
}

/// Little work and deadlines at the edge of admission, or at the period where that is too short.
fn admitted(rng: &mut Rng) -> Table {
    let (whole, n) = (rng.pick(&[840, 1_260, 2_520, 5_040, 7_200]), rng.range(1, 5) as usize);
    let periods = periods(rng, whole, n).expect("a small multiple goes into any count of periods");
    let platform = platform(rng);
    let table = table_of(rng, platform, periods, Load { hundredths: 8, times_shortest: 1 });
    let at_period = Table { rows: table.rows.iter().map(|row| Row { d: row.t, ..*row }).collect(), ..table };
    at_edge(rng, at_period.clone(), Edge::Within).unwrap_or(at_period)
}

/// Few tasks whose periods have a multiple in the range.
fn few_with(rng: &mut Rng, (low, high): (u32, u32), load: Load) -> Table {
    loop {
        let (whole, n) = (rng.range(low, high), rng.range(1, 4) as usize);
        if let Some(periods) = periods(rng, whole, n) {
            let platform = platform(rng);
            return table_of(rng, platform, periods, load);
        }
    }
}

/// A long rehearsal; mostly at the shorter end, since it is taken tick by tick.
fn large(rng: &mut Rng) -> Table {
    let load = Load { hundredths: rng.pick(&[1, 5, 20, 60]), times_shortest: rng.pick(&[1, 1, 2, 500]) };
    let longest = rng.pick(&[150_000, 150_000, 300_000, 1_000_000]);
    few_with(rng, (100_000, longest), load)
}

/// Two tasks on a core. The first is late where it is released just behind a start of the second, so that it can take
/// long until it is.
fn meeting(rng: &mut Rng) -> Table {
    loop {
        let whole = rng.range(100_000, 1_000_000);
        let Some(periods) = periods(rng, whole, 2) else { continue };
        let [first, second] = [periods[0], periods[1]];
        let shortest = first.min(second);
        if shortest < 16 {
            continue;
        }
        let (c, behind) = (rng.range(4, shortest / 4), rng.range(0, 2));
        let runs = rng.range(1, shortest / 4);
        let rows = vec![
            Row { d: runs + c - 1 - behind, t: first, c: runs, a: rng.range(0, 1) },
            Row { d: second, t: second, c, a: rng.range(0, 1) },
        ];
        return Table { n: 2, m: 1, p: 1, rows };
    }
}

/// The longest rehearsal; one time in eight with a task that is released in each of its ticks.
fn million(rng: &mut Rng) -> Table {
    let busy = rng.once_in(2);
    let load = Load { hundredths: if busy { 150 } else { 20 }, times_shortest: if busy { 500 } else { 1 } };
    let mut table = few_with(rng, (1_000_000, 1_000_000), load);
    if rng.once_in(8) {
        table.m = table.m.max(2);
        table.rows.insert(0, Row { d: 1, t: 1, c: 1, a: 0 });
        table.n += 1;
    }
    table
}

/// A multiple that is too large by one, or by up to one in a thousand.
fn above(rng: &mut Rng) -> Table {
    let load = load(rng);
    let high = rng.pick(&[1_000_001, 1_000_050, 1_001_000]);
    few_with(rng, (1_000_001, high), load)
}

/// Periods whose multiple is 2^32, or 2^64, and less than 1,000,000 more: a number of so many bits would hold it as a
/// small one.
const WRAPPED: [&[u32]; 8] = [
    &[49_561, 28_891, 3],
    &[44_789, 23_977, 4],
    &[57_976, 3_221, 23],
    &[51_931, 41_355, 2],
    &[56_845, 61_528, 8_411, 3_249, 193],
    &[20_551, 15_185, 1_367, 8_343, 5_183],
    &[38_921, 28_957, 463, 443, 401, 199],
    &[47_911, 35_749, 9_442, 27_821, 41],
];

fn wrapped(rng: &mut Rng) -> Table {
    let periods = rng.pick(&WRAPPED).to_vec();
    let (platform, load) = (platform(rng), load(rng));
    table_of(rng, platform, periods, load)
}

/// Periods with no regard to their multiple.
fn far(rng: &mut Rng) -> Table {
    let n = rng.range(2, 32);
    let periods = (0..n).map(|_| rng.range(1_000, LONGEST)).collect();
    let (platform, load) = (platform(rng), load(rng));
    table_of(rng, platform, periods, load)
}

#[cfg(test)]
mod tests {
    use super::*;

    #[test]
    fn periods_have_the_multiple_that_was_asked_for() {
        let mut rng = Rng::new(2);
        for whole in [1, 2, 12, 5_040, 65_535, 999_999, 1_000_000, 1_000_001] {
            for n in [2, 3, 32] {
                let t = (0..100).find_map(|_| periods(&mut rng, whole, n)).expect("it goes into them");
                let table = Table::new(1, 1, &t.iter().map(|&t| (t, t, 1, 0)).collect::<Vec<_>>());
                assert_eq!(table.refused(), None);
                assert_eq!(rehearsal::multiple(&table), whole.into());
            }
        }
        assert_eq!(periods(&mut rng, 65_537, 3), None);
        assert_eq!(periods(&mut rng, 131_070, 1), None);
    }

    #[test]
    fn every_table_is_there_once() {
        let all = every(2, 2);
        assert_eq!(all.len(), 2 * 8 * 8);
        assert!(all.iter().all(|table| table.refused().is_none() && all.iter().filter(|x| *x == table).count() == 1));
    }

    #[test]
    fn families_are_good_tables() {
        let mut rng = Rng::new(3);
        for family in [small, equal, ones, many, single, admitted, large, meeting, million, above, wrapped, far] {
            assert!((0..200).all(|_| family(&mut rng).refused().is_none()));
        }
    }
}
