//! The admission rule, and the full and the quick answer.

use crate::table::{Refused, Row, Table};

#[derive(Clone, Debug, PartialEq, Eq)]
pub struct Full {
    pub refused: Option<Refused>,
    pub admitted: bool,
    pub first: u64,
    /// Of tasks 1 to n.
    pub margins: Vec<i64>,
}

#[derive(Clone, Debug, PartialEq, Eq)]
pub struct Quick {
    pub refused: Option<Refused>,
    pub admitted: bool,
    pub first: u64,
}

/// The report's equation 3: what task `i` can take from a job with slack `s`.
pub fn interference(s: i128, i: &Row) -> i128 {
    (s / i128::from(i.t) + 2) * i128::from(i.c)
}

/// M, B and S of task k, counted from 1, of a table that is not refused.
fn measures(table: &Table, k: usize) -> (i128, i128, i128) {
    let tasks = table.tasks();
    let widest = tasks[..k].iter().map(|i| i128::from(i.a)).max().unwrap();
    let s = i128::from(tasks[k - 1].d) - i128::from(tasks[k - 1].c);
    (i128::from(table.m), i128::from(table.p) - widest + 1, s)
}

/// The limit of task k, counted from 1.
pub fn limit(table: &Table, k: usize) -> i128 {
    let (m, b, s) = measures(table, k);
    m * b * s
}

/// The margin of task k, counted from 1, of a table that is not refused.
pub fn margin(table: &Table, k: usize) -> i128 {
    let (m, b, s) = measures(table, k);
    let load: i128 = table.tasks().iter().map(|i| b.max(m * i128::from(i.a)) * interference(s, i)).sum();
    limit(table, k) - load
}

pub fn full(table: &Table) -> Full {
    if let Some(refused) = table.refused() {
        return Full { refused: Some(refused), admitted: false, first: 0, margins: vec![] };
    }
    let margins: Vec<i128> = (1..=table.tasks().len()).map(|k| margin(table, k)).collect();
    let failing = (1..).zip(&margins).find(|(_, &x)| x <= 0).map(|(k, _)| k);
    Full {
        refused: None,
        admitted: failing.is_none(),
        first: failing.unwrap_or(0),
        margins: margins.iter().map(|&x| i64::try_from(x).expect("a margin fits 64 bits")).collect(),
    }
}

pub fn quick(table: &Table) -> Quick {
    if let Some(refused) = table.refused() {
        return Quick { refused: Some(refused), admitted: false, first: 0 };
    }
    match (1..=table.tasks().len()).find(|&k| margin(table, k) <= 0) {
        None => Quick { refused: None, admitted: true, first: 0 },
        Some(k) => Quick { refused: None, admitted: false, first: k as u64 },
    }
}

#[cfg(test)]
mod tests {
    use super::*;

    fn margins(m: u32, p: u32, rows: &[(u32, u32, u32, u32)]) -> (Vec<i64>, bool, u64) {
        let t = Table::new(m, p, rows);
        let f = full(&t);
        let q = quick(&t);
        assert_eq!((f.refused, f.admitted, f.first), (q.refused, q.admitted, q.first));
        (f.margins, f.admitted, f.first)
    }

    #[test]
    fn p1() {
        let rows = [(40, 50, 2, 1), (60, 60, 3, 2), (80, 100, 4, 2)];
        assert_eq!(margins(2, 4, &rows), (vec![232, 268, 370], true, 0));
    }

    #[test]
    fn p2_to_p6() {
        assert_eq!(margins(1, 1, &[(6, 6, 2, 1)]), (vec![0], false, 1));
        assert_eq!(margins(1, 1, &[(7, 7, 2, 1)]), (vec![1], true, 0));
        assert_eq!(margins(1, 1, &[(5, 5, 2, 1)]), (vec![-1], false, 1));
        assert_eq!(margins(1, 1, &[(2, 2, 2, 1)]), (vec![-4], false, 1));
        assert_eq!(margins(1, 1, &[(6, 6, 2, 0)]), (vec![0], false, 1));
    }

    /// The report's table 2: interference 4, 4, 6 by C of 2, 2, 3 and periods above the slack; M = 2, B = 4, A 1, 3, 1.
    #[test]
    fn p7() {
        let t = Table::new(2, 6, &[(10, 100, 2, 1), (10, 100, 2, 3), (11, 100, 3, 1)]);
        let s = 8;
        assert_eq!(t.tasks().iter().map(|i| interference(s, i)).collect::<Vec<_>>(), [4, 4, 6]);
        // B = 6 - 3 + 1 = 4 for tasks 2 and 3, so limit less margin is the load
        assert_eq!(2 * 4 * s - margin(&t, 2), 64);
        assert_eq!(2 * 4 * s - margin(&t, 3), 64);
        assert_eq!(64 / (2 * 4), 8);
    }

    #[test]
    fn the_widest_of_the_higher_tasks_counts() {
        // with A of task 2 alone B would be 4 and the margin 2 * 4 * 18 - load
        let t = Table::new(2, 4, &[(40, 40, 2, 4), (20, 20, 2, 1)]);
        // B = 1: limit 2 * 1 * 18 = 36; load = max(1, 8) * 2 * 2 + max(1, 2) * 2 * 2 = 40
        assert_eq!(margin(&t, 2), -4);
    }

    #[test]
    fn equation_3_counts_whole_periods() {
        for t in 1..40 {
            for s in 0..200 {
                let periods = (1..=s).filter(|x| x % t == 0).count() as i128;
                let i = Row { d: 0, t: t as u32, c: 3, a: 0 };
                assert_eq!(interference(s, &i), 3 * periods + 6);
            }
        }
    }

    #[test]
    fn a_refused_table_has_nothing_else() {
        let f = full(&Table::new(1, 1, &[(6, 6, 2, 2)]));
        assert_eq!(f, Full { refused: Some(Refused { number: 8, at: 1 }), admitted: false, first: 0, margins: vec![] });
    }
}
