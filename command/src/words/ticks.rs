//! What `ticks` wrote, in words: sets as task numbers, refused rows, late tasks.

use super::refusal::{cure, meaning};
use super::{counted, tasks};
use crate::listing::{tasks_of, Tick};

/// So many rows of a kind are shown at length.
const AT_LENGTH: usize = 10;

/// A row of the ticks text: the set released and the set finished.
pub type Report = (u32, u32);

/// The count of rows, then the refused and the late ones. `name` is what the ticks text goes by.
pub fn summary(name: &str, rows: &[Tick], reports: &[Report]) -> String {
    let refused: Vec<usize> = (0..rows.len()).filter(|&at| rows[at].refused != 0).collect();
    let late: Vec<usize> = (0..rows.len()).filter(|&at| rows[at].late != 0).collect();
    let mut words = format!(
        "{}: {} taken, {} refused, {}\n",
        counted(rows.len(), "row"),
        counted(rows.len() - refused.len(), "tick"),
        counted(refused.len(), "row"),
        match late.len() {
            0 => "no task late".into(),
            count => format!("{} with late tasks", counted(count, "tick")),
        }
    );
    for &at in refused.iter().take(AT_LENGTH) {
        words += &refused_row(name, at, &rows[at], reports[at]);
    }
    words += &further(refused.len(), "refused rows, not shown");
    for &at in late.iter().take(AT_LENGTH) {
        let (place, set) = (row_and_line(name, at), tasks(&tasks_of(rows[at].late)));
        words += &format!("{place}, tick {}: late: {set}\n", rows[at].tick);
    }
    words += &further(late.len(), "ticks with late tasks, not shown");
    if !late.is_empty() {
        words += "late: a deadline was missed, which cannot come up if the table is admitted: run gorsetumble admit\n";
    }
    words
}

fn further(count: usize, what: &str) -> String {
    match count.saturating_sub(AT_LENGTH) {
        0 => String::new(),
        more => format!("and {more} more {what}\n"),
    }
}

fn row_and_line(name: &str, at: usize) -> String {
    format!("{name}, line {} (row {})", at + 2, at + 1)
}

fn refused_row(name: &str, at: usize, row: &Tick, (released, finished): Report) -> String {
    format!(
        "{}: refused, number {}: {}\n  the row: {}. Nothing happened, the tick is not counted\n  cure: {}\n",
        row_and_line(name, at),
        row.refused,
        meaning(row.refused),
        sets(&[("released", released), ("finished", finished)]),
        cure(row.refused)
    )
}

/// Every row, with the sets as task numbers.
pub fn every_row(rows: &[Tick]) -> String {
    let line = |row: &Tick| match row.refused {
        0 => {
            let sets = sets(&[("finished", row.finished), ("late", row.late), ("started", row.started)]);
            format!("tick {}: {sets}\n", row.tick)
        }
        number => format!("tick {}: refused, number {number}: {}\n", row.tick, meaning(number)),
    };
    rows.iter().map(line).collect()
}

/// "finished task 1; started task 3", without the empty sets.
fn sets(named: &[(&str, u32)]) -> String {
    let named = named.iter().filter(|(_, set)| *set != 0);
    let words: Vec<String> = named.map(|(name, set)| format!("{name} {}", tasks(&tasks_of(*set)))).collect();
    match words.is_empty() {
        true => "nothing".into(),
        false => words.join("; "),
    }
}

#[cfg(test)]
mod tests {
    use super::*;

    fn row(tick: usize, refused: u32, late: u32) -> Tick {
        Tick { tick, refused, finished: 0, late, started: 0 }
    }

    #[test]
    fn nothing_and_little() {
        assert_eq!(summary("log", &[], &[]), "no row: no tick taken, no row refused, no task late\n");
        assert_eq!(summary("log", &[row(0, 0, 0)], &[(0, 0)]), "1 row: 1 tick taken, no row refused, no task late\n");
        assert_eq!(every_row(&[row(0, 0, 0)]), "tick 0: nothing\n");
        let refused = summary("log", &[row(0, 10, 0)], &[(0, 0)]);
        assert!(refused.contains("log, line 2 (row 1): refused, number 10: a tick says"), "{refused}");
        assert!(refused.contains("  the row: nothing. Nothing happened"), "{refused}");
    }

    #[test]
    fn the_first_rows_of_a_kind_at_length() {
        let rows: Vec<Tick> =
            (0..24).map(|at| row(at.min(12), 12 * u32::from(at > 11), 8 * u32::from(at < 12))).collect();
        let words = summary("log", &rows, &[(0, 0); 24]);
        assert!(words.starts_with("24 rows: 12 ticks taken, 12 rows refused, 12 ticks with late tasks\n"), "{words}");
        assert_eq!(words.matches("Nothing happened").count(), AT_LENGTH);
        assert_eq!(words.matches(": late: task 4\n").count(), AT_LENGTH);
        assert!(words.contains("and 2 more refused rows, not shown\n"), "{words}");
        assert!(words.contains("and 2 more ticks with late tasks, not shown\n"), "{words}");
    }
}
