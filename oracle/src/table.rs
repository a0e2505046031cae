//! The task table and refusals 1 to 8.

use std::collections::BTreeSet;

#[derive(Clone, Copy, Debug, Default, PartialEq, Eq)]
pub struct Row {
    pub d: u32,
    pub t: u32,
    pub c: u32,
    pub a: u32,
}

/// `n` tasks on `m` cores and `p` partitions. Where `n` is good there are at least `n` rows; those past `n` are not the
/// table's.
#[derive(Clone, Debug, PartialEq, Eq)]
pub struct Table {
    pub n: u64,
    pub m: u32,
    pub p: u32,
    pub rows: Vec<Row>,
}

/// A refusal: its number, and the row, task or offset that it carries.
#[derive(Clone, Copy, Debug, PartialEq, Eq)]
pub struct Refused {
    pub number: u32,
    pub at: u64,
}

pub const ROWS: usize = 32;

impl Table {
    /// From rows in (D, T, C, A) order.
    pub fn new(m: u32, p: u32, rows: &[(u32, u32, u32, u32)]) -> Table {
        let rows: Vec<Row> = rows.iter().map(|&(d, t, c, a)| Row { d, t, c, a }).collect();
        Table { n: rows.len() as u64, m, p, rows }
    }

    /// The tasks of a table that is not refused.
    pub fn tasks(&self) -> &[Row] {
        &self.rows[..self.n as usize]
    }

    /// Every complaint that can be made of the table, as (row, number). Refusals 1 to 3 are of row 0, so the order of
    /// document 01, "1, 2, 3, then row by row 4 to 8", is the order of these pairs.
    fn complaints(&self) -> BTreeSet<(u64, u32)> {
        let mut all = BTreeSet::new();
        let mut complain = |row: u64, number: u32, when: bool| {
            if when {
                all.insert((row, number));
            }
        };
        let rows_can_be_told = (1..=32).contains(&self.n);
        complain(0, 1, !rows_can_be_told);
        complain(0, 2, !(1..=16).contains(&self.m));
        complain(0, 3, !(1..=64).contains(&self.p));
        if rows_can_be_told {
            for (row, task) in (1..).zip(self.tasks()) {
                complain(row, 4, !(1..=65_535).contains(&task.t));
                complain(row, 5, task.c == 0);
                complain(row, 6, task.c > task.d);
                complain(row, 7, task.d > task.t);
                complain(row, 8, task.a > self.p);
            }
        }
        all
    }

    pub fn refused(&self) -> Option<Refused> {
        self.complaints().first().map(|&(at, number)| Refused { number, at })
    }
}

#[cfg(test)]
mod tests {
    use super::*;

    fn of(t: &Table) -> (u32, u64) {
        t.refused().map_or((0, 0), |r| (r.number, r.at))
    }

    #[test]
    fn limits() {
        let good = (5, 5, 2, 1);
        assert_eq!(of(&Table::new(1, 1, &[])), (1, 0));
        assert_eq!(of(&Table::new(1, 1, &[good; 32])), (0, 0));
        assert_eq!(of(&Table::new(1, 1, &[good; 33])), (1, 0));
        assert_eq!(of(&Table::new(0, 1, &[good])), (2, 0));
        assert_eq!(of(&Table::new(16, 1, &[good])), (0, 0));
        assert_eq!(of(&Table::new(17, 1, &[good])), (2, 0));
        assert_eq!(of(&Table::new(65_537, 1, &[good])), (2, 0));
        assert_eq!(of(&Table::new(1, 0, &[good])), (3, 0));
        assert_eq!(of(&Table::new(1, 64, &[good])), (0, 0));
        assert_eq!(of(&Table::new(1, 65, &[good])), (3, 0));
        assert_eq!(of(&Table::new(1, 1, &[(1, 65_535, 1, 1)])), (0, 0));
        assert_eq!(of(&Table::new(1, 1, &[(1, 65_536, 1, 1)])), (4, 1));
        assert_eq!(of(&Table::new(1, 1, &[(0, 0, 0, 0)])), (4, 1));
        assert_eq!(of(&Table::new(1, 1, &[good, (5, 5, 0, 1)])), (5, 2));
        assert_eq!(of(&Table::new(1, 1, &[good, (5, 5, 6, 1)])), (6, 2));
        assert_eq!(of(&Table::new(1, 1, &[good, (6, 5, 6, 1)])), (7, 2));
        assert_eq!(of(&Table::new(1, 1, &[good, (5, 5, 5, 2)])), (8, 2));
        assert_eq!(of(&Table::new(1, 1, &[(5, 5, 5, 1), good])), (0, 0));
    }

    #[test]
    fn order() {
        assert_eq!(of(&Table::new(0, 0, &[])), (1, 0));
        assert_eq!(of(&Table::new(0, 0, &[(9, 0, 0, 9)])), (2, 0));
        assert_eq!(of(&Table::new(1, 0, &[(9, 0, 0, 9)])), (3, 0));
        // an 8 in row 1 comes before a 4 in row 2
        assert_eq!(of(&Table::new(1, 1, &[(5, 5, 5, 2), (5, 0, 5, 1)])), (8, 1));
        assert_eq!(of(&Table::new(1, 1, &[(9, 5, 0, 2)])), (5, 1));
        assert_eq!(of(&Table::new(1, 1, &[(9, 5, 10, 2)])), (6, 1));
    }
}
