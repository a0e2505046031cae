//! What stands where in a chart. Lengths are in tenths of a pixel.

use super::jobs::Job;
use super::scale::{Scale, Window};
use super::svg::{across, arrow, down, rectangle, Svg};
use crate::bench::{End, Table, Task};
use crate::listing::Rehearsed;
use crate::words::rehearsal::PATTERN;
use crate::words::{counted, grouped, tasks};

pub struct Picture<'a> {
    pub table: &'a Table,
    pub rows: &'a [Rehearsed],
    pub end: End,
    pub window: Window,
    pub jobs: &'a [Vec<Job>],
}

const MARGIN: i64 = 200;
/// Over the lanes: three lines of words.
const TOP: i64 = 900;
/// Under the lanes: the scale and the legend.
const UNDER: i64 = 760;
const LANE: i64 = 460;
const BAR: i64 = 180;
/// From the top of a lane to its bars: the deadlines stand between.
const OVER_BAR: i64 = 110;
const ARROW: i64 = 75;
const LETTER: i64 = 75;
const SMALL_LETTER: i64 = 62;
const LATE_ROOM: i64 = 500;

const RUNNING: &str = "fill=\"#1f4e8c\" stroke=\"#000000\" stroke-width=\"0.6\"";
const RUNNING_MERGED: &str = "fill=\"#1f4e8c\"";
const WAITING: &str = "fill=\"#f6cf65\" stroke=\"#000000\" stroke-width=\"0.6\"";
const WAITING_MERGED: &str = "fill=\"#f6cf65\"";
const LATE: &str = "fill=\"none\" stroke=\"#c00000\" stroke-width=\"3\"";
const RELEASE: &str = "fill=\"#000000\"";
const DEADLINE: &str = "fill=\"#ffffff\" stroke=\"#000000\"";
const GRID: &str = "fill=\"none\" stroke=\"#d0d0d0\"";
const AXIS: &str = "fill=\"none\" stroke=\"#000000\"";

impl Picture<'_> {
    pub fn svg(&self) -> String {
        let scale = Scale { window: self.window, left: self.left() };
        let bottom = TOP + LANE * self.jobs.len() as i64;
        let right = if self.late_tasks().is_empty() { MARGIN } else { LATE_ROOM };
        let width = scale.left + self.window.width() + MARGIN + right;
        let mut svg = Svg::new(width, bottom + UNDER, &self.headline());
        svg.text((MARGIN, 300), " font-size=\"16\" font-weight=\"bold\"", &self.headline());
        svg.text((MARGIN, 500), "", &format!("Pattern: {PATTERN}. A trial, no promise."));
        svg.text((MARGIN, 690), "", &self.extent());
        numbers(&mut svg, &scale, bottom);
        for (at, jobs) in self.jobs.iter().enumerate() {
            self.lane(&mut svg, &scale, at, jobs);
        }
        svg.path(AXIS, &[across(scale.left, bottom, self.window.width())]);
        legend(&mut svg, bottom + 520);
        svg.ended()
    }

    fn headline(&self) -> String {
        let board = format!(
            "Rehearsal on {} and {}",
            counted(self.table.cores as usize, "core"),
            counted(self.table.partitions as usize, "partition")
        );
        let Some(lowest) = self.end.late else { return format!("{board}: no job late") };
        let shown = self.late_tasks();
        let late = match shown.len() {
            0 => tasks(&[lowest]),
            1..=4 => tasks(&shown),
            count => counted(count, "task"),
        };
        format!("{board}: {late} late at tick {}", grouped(self.end.tick))
    }

    /// The tasks with a late job in the chart.
    fn late_tasks(&self) -> Vec<usize> {
        let late = |jobs: &Vec<Job>| jobs.last().is_some_and(|job| job.late);
        (1..=self.jobs.len()).filter(|task| late(&self.jobs[task - 1])).collect()
    }

    /// Which ticks are shown, and how closely.
    fn extent(&self) -> String {
        let (Window { first, last }, end) = (self.window, self.end.tick);
        let mut words = format!("Shown: ticks {} to {}", grouped(first), grouped(last));
        words += &match (first, last == end) {
            (0, true) => ", the whole rehearsal.".into(),
            _ => format!(" of 0 to {}.", grouped(end)),
        };
        if self.end.late.is_some() && last < end {
            words += " The late tick lies beyond.";
        }
        if self.window.is_merged() {
            words += " Bars closer than a pixel are drawn as one.";
        }
        words
    }

    /// Right of all that is written before the lanes.
    fn left(&self) -> i64 {
        let width = |(task, row): (&Task, &Rehearsed)| {
            let (label, note) = (label(row.task, task), self.note(task, row));
            (LETTER * label.len() as i64).max(SMALL_LETTER * note.len() as i64)
        };
        2 * MARGIN + self.table.tasks.iter().zip(self.rows).map(width).max().unwrap_or(0)
    }

    /// Under the label: the starts of the whole rehearsal, shown or not.
    fn note(&self, task: &Task, row: &Rehearsed) -> String {
        let jobs = match row.started {
            0 => "no job".into(),
            1 => "1 job".into(),
            count => format!("{} jobs", grouped(count)),
        };
        let marks = if self.window.has_marks(task) { "" } else { "; marks too close to draw" };
        format!("{jobs} started in all{marks}")
    }

    fn lane(&self, svg: &mut Svg, scale: &Scale, at: usize, jobs: &[Job]) {
        let (task, row, window) = (&self.table.tasks[at], &self.rows[at], self.window);
        let bar = TOP + LANE * at as i64 + OVER_BAR;
        svg.text((MARGIN, bar + 80), "", &label(row.task, task));
        svg.text((MARGIN, bar + 230), " font-size=\"10\"", &self.note(task, row));
        svg.path(GRID, &[across(scale.left, bar + BAR, window.width())]);
        let (waiting, running) = match window.is_merged() {
            true => (WAITING_MERGED, RUNNING_MERGED),
            false => (WAITING, RUNNING),
        };
        let waits = jobs.iter().map(|job| (job.released, job.started.unwrap_or(window.last)));
        let runs = jobs.iter().filter_map(|job| Some((job.started?, job.finished.unwrap_or(window.last))));
        let drawn = |&(from, to): &(i64, i64)| rectangle(from, bar, to - from, BAR);
        svg.path(waiting, &scale.bars(waits).iter().map(drawn).collect::<Vec<_>>());
        svg.path(running, &scale.bars(runs).iter().map(drawn).collect::<Vec<_>>());
        if window.has_marks(task) {
            let releases = jobs.iter().map(|job| job.released).filter(|&tick| window.has(tick));
            let up = releases.map(|tick| arrow(scale.x(tick), bar + BAR + 15, ARROW));
            svg.path(RELEASE, &up.collect::<Vec<_>>());
            let deadlines = jobs.iter().map(|job| job.released + task.deadline).filter(|&tick| window.has(tick));
            let down = deadlines.map(|tick| arrow(scale.x(tick), bar - 15, -ARROW));
            svg.path(DEADLINE, &down.collect::<Vec<_>>());
        }
        if let Some(job) = jobs.iter().find(|job| job.late) {
            let (from, to) = (scale.x(job.released), scale.x(window.last));
            svg.path(LATE, &[drawn(&(from, to))]);
            svg.text((to + 100, bar + 135), " font-weight=\"bold\" fill=\"#c00000\"", "late");
        }
    }
}

fn label(number: usize, task: &Task) -> String {
    let Task { deadline, period, run, partitions } = task;
    format!("task {number} (D {deadline}, T {period}, C {run}, A {partitions})")
}

/// Under the lanes, and a line through them over each.
fn numbers(svg: &mut Svg, scale: &Scale, bottom: i64) {
    let lines = scale.window.numbered().map(|tick| down(scale.x(tick), TOP, bottom - TOP + 50));
    svg.path(GRID, &lines.collect::<Vec<_>>());
    for tick in scale.window.numbered() {
        svg.text((scale.x(tick), bottom + 200), " text-anchor=\"middle\"", &grouped(tick));
    }
    svg.text((scale.left - MARGIN, bottom + 200), " text-anchor=\"end\"", "tick");
}

fn legend(svg: &mut Svg, y: i64) {
    let mut x = MARGIN;
    let mut entry = |attributes: &str, shape: &dyn Fn(i64) -> String, words: &str| {
        svg.path(attributes, &[shape(x)]);
        svg.text((x + 300, y + 40), "", words);
        x += 300 + LETTER * words.len() as i64 + 250;
    };
    let bar = |x| rectangle(x, y - 90, 220, 150);
    entry(WAITING, &bar, "waiting");
    entry(RUNNING, &bar, "running");
    entry(RELEASE, &|x| arrow(x + 120, y - 30, ARROW), "release");
    entry(DEADLINE, &|x| arrow(x + 120, y + 40, -ARROW), "deadline");
    entry(LATE, &bar, "late job");
}

#[cfg(test)]
mod tests {
    use super::*;
    use crate::bench::tests::{listing, table};
    use crate::bench::Foreseen;
    use crate::chart::{jobs::jobs, window};

    /// The chart where `ticks` answers as foreseen.
    fn chart(table: &Table, rows: &[Rehearsed]) -> String {
        let end = table.end(rows).unwrap();
        let foreseen = Foreseen::new(table, end);
        let jobs = jobs(table.tasks.len(), &foreseen.reports, &foreseen.ticks);
        let window = window(table, end, foreseen.ticks.len() as u32 - 1);
        let svg = Picture { table, rows, end, window, jobs: &jobs }.svg();
        assert!(svg.lines().all(|line| line.len() <= 120), "{svg}");
        assert!(svg.bytes().all(|byte| byte == b'\n' || (0x20..0x7F).contains(&byte)));
        svg
    }

    /// How many shapes the paths of this kind have.
    fn shapes(svg: &str, kind: &str) -> usize {
        let paths = svg.split("<path ").filter(|path| path.starts_with(kind));
        paths.map(|path| path.split("\"/>").next().unwrap_or_default().matches('M').count()).sum()
    }

    const P8: [[u32; 4]; 4] = [[6, 6, 2, 1], [8, 8, 3, 2], [9, 9, 2, 2], [12, 12, 2, 1]];

    #[test]
    fn every_job_of_a_short_rehearsal() {
        let svg = chart(&table(3, 4, &P8), &listing(&[12, 9, 8, 6], None));
        assert!(svg.contains("Rehearsal on 3 cores and 4 partitions: no job late</text>"), "{svg}");
        assert!(svg.contains("Shown: ticks 0 to 72, the whole rehearsal.</text>"));
        assert!(svg.contains(">task 2 (D 8, T 8, C 3, A 2)</text>"));
        let jobs = 12 + 9 + 8 + 6;
        let in_legend = 1;
        assert_eq!(shapes(&svg, RUNNING), jobs + in_legend);
        assert_eq!(shapes(&svg, RELEASE), jobs + in_legend);
        assert_eq!(shapes(&svg, DEADLINE), jobs + in_legend);
        assert_eq!(shapes(&svg, WAITING), 3 + in_legend, "task 3 waits at 0 and 18, task 4 at 0");
        assert_eq!(shapes(&svg, LATE), in_legend);
    }

    #[test]
    fn the_late_job_is_marked() {
        let late = chart(&table(1, 4, &P8), &listing(&[2, 2, 1, 0], Some((4, 12))));
        assert!(late.contains("Rehearsal on 1 core and 4 partitions: task 4 late at tick 12</text>"), "{late}");
        assert_eq!((shapes(&late, LATE), late.matches(">late</text>").count()), (2, 1));
        let rows = [[1, 10, 1, 1], [3, 10, 1, 0], [2, 10, 2, 1], [2, 10, 1, 1]];
        let both = chart(&table(1, 1, &rows), &listing(&[1, 1, 0, 0], Some((3, 2))));
        assert!(both.contains(": tasks 3 and 4 late at tick 2</text>"), "{both}");
        let many = chart(&table(1, 1, &[[1, 1, 1, 1]; 32]), &listing(&[&[1][..], &[0; 31]].concat(), Some((2, 1))));
        assert!(many.contains(": 31 tasks late at tick 1</text>"), "{many}");
    }

    #[test]
    fn which_ticks_are_shown() {
        let cut = chart(&table(1, 1, &[[50_000, 50_000, 6, 1], [10, 25_000, 1, 0]]), &listing(&[1, 2], None));
        assert!(cut.contains("Shown: ticks 0 to 11,995 of 0 to 50,000. Bars closer"), "{cut}");
        let rows = [[100, 20_000, 10, 1], [15_000, 15_000, 6_000, 1]];
        let beyond = chart(&table(1, 1, &rows), &listing(&[1, 2], Some((1, 20_100))));
        assert!(beyond.contains(": task 1 late at tick 20,100</text>"));
        assert!(beyond.contains("ticks 0 to 11,995 of 0 to 20,100. The late tick lies beyond."), "{beyond}");
        assert!(!beyond.contains(">late</text>"));
        let window = chart(&table(1, 1, &[[3, 100, 2, 1], [101, 101, 22, 1]]), &listing(&[82, 81], Some((1, 8_103))));
        assert!(window.contains("Shown: ticks 7,513 to 8,103 of 0 to 8,103.</text>"), "{window}");
        assert!(window.contains(">late</text>"));
    }

    #[test]
    fn many_ticks_to_a_pixel() {
        let svg = chart(&table(16, 64, &[[2, 2, 1, 2]; 16]), &listing(&[1; 16], None));
        assert!(!svg.contains("too close"), "{svg}");
        let rows = [[[2, 2, 1, 2]; 15].as_slice(), &[[10_000, 10_000, 1, 1]]].concat();
        let svg = chart(&table(16, 64, &rows), &listing(&[&[5_000; 15][..], &[1]].concat(), None));
        assert!(svg.contains(">\n5,000 jobs started in all; marks too close to draw</text>"), "{svg}");
        assert!(svg.len() < 20_000, "{}", svg.len());
    }
}
