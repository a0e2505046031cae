//! A rehearsal in words: what it tried, and that it promises nothing.

use super::{grouped, shown};
use crate::listing::Rehearsed;
use std::path::Path;

pub const PATTERN: &str = "all tasks released at tick 0 and then each period, every job running its full C";

/// The first line rests on the listing alone.
pub fn of_rows(rows: &[Rehearsed], folder: &Path) -> String {
    let folder = shown(folder);
    match rows.iter().find(|row| row.late != 0) {
        None => format!(
            "none late: no job missed its deadline in this one pattern of releases\n  the pattern: {PATTERN}\n\
            a trial, and no promise: in another pattern a job may be late. Only admission promises:\n  \
            gorsetumble admit {folder}\n"
        ),
        Some(Rehearsed { task, late, .. }) => format!(
            "late: a job of task {task} missed its deadline at tick {}, and the rehearsal ended there\n  \
            the pattern: {PATTERN}\n  of tasks that are late at one tick the listing names the lowest\n\
            an admitted table is never late in this pattern, so this one is not admitted. Who takes what:\n  \
            gorsetumble explain {folder}\n",
            grouped(*late)
        ),
    }
}

pub fn of_chart(file: &Path) -> String {
    format!("the chart is in {}\n", shown(file))
}

pub fn of_no_chart(file: &Path) -> String {
    format!("nothing was rehearsed, so no chart is drawn: {} is as it was\n", shown(file))
}

#[cfg(test)]
mod tests {
    use super::*;

    #[test]
    fn no_line_is_too_long() {
        for late in [0, 1_000_000] {
            let words = of_rows(&[Rehearsed { task: 32, started: 0, late }], Path::new("unit"));
            assert!(words.lines().all(|line| line.chars().count() <= 100), "{words}");
        }
    }
}
