//! Margins in words: who takes how much of a task's limit, and how far it is from passing.

use super::{counted, tasks};
use crate::listing::{Margin, Share};

/// So many tasks that do not pass are shown at length by `admit`.
const AT_LENGTH: usize = 5;

/// So many shares of a task are shown one by one.
const SHARES: usize = 8;

/// A task as the unit's text has it.
pub struct Times {
    pub deadline: u32,
    pub run: u32,
}

/// Of every task: its times, and what each task takes of its limit. Both are in the order of the tasks.
pub struct Explained {
    pub times: Vec<Times>,
    pub shares: Vec<Share>,
}

pub fn headline(rows: &[Margin]) -> String {
    let failing: Vec<usize> = rows.iter().filter(|row| !row.passes).map(|row| row.task).collect();
    let least = rows.iter().min_by_key(|row| row.margin);
    let least = least.map_or(String::new(), |row| format!("; the least margin is task {}'s, {}", row.task, row.margin));
    match (failing.len(), rows.len()) {
        (0, 1) => format!("admitted: the one task passes{least}\n"),
        (0, all) => format!("admitted: all {all} tasks pass{least}\n"),
        (1, all) => format!("not admitted: {} of {all} does not pass{least}\n", tasks(&failing)),
        (count, all) if count <= AT_LENGTH => {
            format!("not admitted: {} of {all} do not pass{least}\n", tasks(&failing))
        }
        (count, all) => format!("not admitted: {count} of {all} tasks do not pass{least}\n"),
    }
}

/// The tasks that do not pass, where `explain` could not be asked.
pub fn margins_only(rows: &[Margin]) -> String {
    let failing = rows.iter().filter(|row| !row.passes);
    failing.map(|row| format!("task {}: margin {}: {}\n", row.task, row.margin, wanting(row))).collect()
}

/// The tasks that do not pass: the first ones at length, the rest in a line.
pub fn not_admitted(rows: &[Margin], explained: &Explained) -> String {
    let failing: Vec<&Margin> = rows.iter().filter(|row| !row.passes).collect();
    let (long, short) = failing.split_at(failing.len().min(AT_LENGTH));
    let mut words: String = long.iter().map(|row| at_length(row, explained)).collect();
    if !short.is_empty() {
        let margins: Vec<String> = short.iter().map(|row| format!("{} ({})", row.task, row.margin)).collect();
        words += &format!("further tasks that do not pass, with their margins: {}\n", margins.join(", "));
    }
    words + HELPS
}

/// Every task at length.
pub fn every_task(rows: &[Margin], explained: &Explained) -> String {
    let words: String = rows.iter().map(|row| at_length(row, explained)).collect();
    match rows.iter().all(|row| row.passes) {
        true => words,
        false => words + HELPS,
    }
}

const HELPS: &str = "\
usually helps (no theorem promises it: change one thing, and run admit again):
  of the tasks that take most: a longer T, a shorter C, a smaller A
  of the task that does not pass: a longer D, a shorter C
  a board with more cores or partitions
not all of it is sure: a longer D or a shorter C lengthens the task's own slack, in which more jobs
count; more cores or partitions, or a smaller A, can raise the weights as well as the limit
";

fn wanting(row: &Margin) -> String {
    match row.passes {
        true => "it passes".into(),
        false => format!("it passes from 1 on, {} more", 1 - row.margin),
    }
}

fn at_length(row: &Margin, explained: &Explained) -> String {
    let mut shares: Vec<Share> = explained.shares.iter().filter(|share| share.task == row.task).copied().collect();
    let load: u64 = shares.iter().map(|share| share.share).sum();
    // Theorem ListingAddsUp: the shares add up to the load, and limit less load is the margin.
    let limit = i128::from(load) + i128::from(row.margin);
    let Times { deadline, run } = explained.times[row.task - 1];
    let slack = i64::from(deadline) - i64::from(run);
    let mut words = format!("task {}: margin {}: {}\n", row.task, row.margin, wanting(row));
    words += &format!("  slack: D - C = {deadline} - {run} = {}\n", counted_ticks(slack));
    words += &format!("  load {load}, limit {limit}: {}\n", distance(row));
    shares.sort_by_key(|share| (std::cmp::Reverse(share.share), share.other));
    let (long, short) = shares.split_at(shares.len().min(SHARES));
    for share in long {
        words += &format!("    {} {}\n", taker(share), part(share.share, load));
    }
    if !short.is_empty() {
        let rest: u64 = short.iter().map(|share| share.share).sum();
        let takes = if short.len() == 1 { "takes" } else { "take" };
        words += &format!("    the other {} {takes} {}\n", counted(short.len(), "task"), part(rest, load));
    }
    words
}

fn counted_ticks(slack: i64) -> String {
    match slack {
        1 => "1 tick".into(),
        _ => format!("{slack} ticks"),
    }
}

fn distance(row: &Margin) -> String {
    match row.passes {
        true => format!("the load is below the limit, by {}", row.margin),
        false => format!("the load must fall below the limit: by at least {}", 1 - row.margin),
    }
}

fn taker(share: &Share) -> String {
    match share.other == share.task {
        true => "its own jobs take".into(),
        false => format!("task {} takes", share.other),
    }
}

/// "84 of 131 (64 %)", to the nearest whole percent.
fn part(share: u64, load: u64) -> String {
    let percent = (u128::from(share) * 200 + u128::from(load)) / (u128::from(load) * 2).max(1);
    format!("{share} of {load} ({percent} %)")
}

#[cfg(test)]
mod tests {
    use super::*;

    /// Margins of tasks 1 and so on, and shares that are the other task's number.
    fn unit(margins: &[i64]) -> (Vec<Margin>, Explained) {
        let margin = |(at, &margin): (usize, &i64)| Margin { task: at + 1, margin, passes: margin > 0 };
        let pair = |at: usize| (at / margins.len() + 1, at % margins.len() + 1);
        let share = |at| Share { task: pair(at).0, other: pair(at).1, share: pair(at).1 as u64 };
        let times = margins.iter().map(|_| Times { deadline: 5, run: 4 }).collect();
        let shares = (0..margins.len() * margins.len()).map(share).collect();
        (margins.iter().enumerate().map(margin).collect(), Explained { times, shares })
    }

    #[test]
    fn headlines() {
        let of = |margins: &[i64]| headline(&unit(margins).0);
        assert_eq!(of(&[1]), "admitted: the one task passes; the least margin is task 1's, 1\n");
        assert_eq!(of(&[3, 2, 2]), "admitted: all 3 tasks pass; the least margin is task 2's, 2\n");
        assert_eq!(of(&[3, 0]), "not admitted: task 2 of 2 does not pass; the least margin is task 2's, 0\n");
        let two = "not admitted: tasks 1 and 3 of 3 do not pass; the least margin is task 3's, -9\n";
        assert_eq!(of(&[0, 1, -9]), two);
        let six = "not admitted: 6 of 7 tasks do not pass; the least margin is task 1's, -1\n";
        assert_eq!(of(&[-1, -1, -1, -1, -1, -1, 1]), six);
    }

    #[test]
    fn far_from_passing_and_near() {
        let (rows, explained) = unit(&[0, 7]);
        let wanted = "task 1: margin 0: it passes from 1 on, 1 more\n\
            \x20 slack: D - C = 5 - 4 = 1 tick\n\
            \x20 load 3, limit 3: the load must fall below the limit: by at least 1\n\
            \x20   task 2 takes 2 of 3 (67 %)\n\
            \x20   its own jobs take 1 of 3 (33 %)\n";
        assert_eq!(not_admitted(&rows, &explained), format!("{wanted}{HELPS}"));
        let other = "task 2: margin 7: it passes\n\
            \x20 slack: D - C = 5 - 4 = 1 tick\n\
            \x20 load 3, limit 10: the load is below the limit, by 7\n\
            \x20   its own jobs take 2 of 3 (67 %)\n\
            \x20   task 1 takes 1 of 3 (33 %)\n";
        assert_eq!(every_task(&rows, &explained), format!("{wanted}{other}{HELPS}"));
        assert_eq!(margins_only(&rows), "task 1: margin 0: it passes from 1 on, 1 more\n");
        let (rows, explained) = unit(&[1, 7]);
        assert!(!every_task(&rows, &explained).contains(HELPS));
    }

    #[test]
    fn many_tasks_in_few_lines() {
        let (rows, explained) = unit(&[-2; 10]);
        let words = not_admitted(&rows, &explained);
        assert_eq!(words.matches("slack").count(), AT_LENGTH + 1, "one of them in what helps");
        assert!(
            words.contains("further tasks that do not pass, with their margins: 6 (-2), 7 (-2), 8 (-2), 9 (-2), 10")
        );
        assert!(words.contains("    task 10 takes 10 of 55 (18 %)\n    task 9 takes"));
        assert!(words.contains("    the other 2 tasks take 3 of 55 (5 %)\n"), "{words}");
        let rest = "    the other 1 task takes";
        let (rows, explained) = unit(&[-2; 9]);
        assert!(not_admitted(&rows, &explained).contains(rest));
    }

    #[test]
    fn whole_percents() {
        assert_eq!(part(84, 131), "84 of 131 (64 %)");
        assert_eq!(part(1, 200), "1 of 200 (1 %)");
        assert_eq!(part(1, 201), "1 of 201 (0 %)");
        assert_eq!(part(u64::MAX / 200, u64::MAX), format!("{} of {} (0 %)", u64::MAX / 200, u64::MAX));
        assert_eq!(part(0, 0), "0 of 0 (0 %)");
    }
}
