//! From ticks to places across a chart. Lengths are in tenths of a pixel.

use crate::bench::Task;

/// The ticks that are shown, the last one as an instant.
#[derive(Debug, Clone, Copy, PartialEq, Eq)]
pub struct Window {
    pub first: u32,
    pub last: u32,
}

const NARROWEST: i64 = 6_000;
const WIDEST: i64 = 11_800;
/// A tick is no wider, unless the chart would be too narrow.
const WIDE_TICK: i64 = 240;
/// Where a tick is narrower, bars that come closer than a pixel are drawn as one.
const NARROW_TICK: i64 = 20;
/// Where a period is narrower, its releases and deadlines are not drawn.
const NARROW_PERIOD: i64 = 90;
/// Numbers of the scale are at least so far apart.
const APART: i64 = 600;
const PIXEL: i64 = 10;

impl Window {
    fn ticks(self) -> i64 {
        i64::from(self.last - self.first).max(1)
    }

    pub fn width(self) -> i64 {
        (WIDE_TICK * self.ticks()).clamp(NARROWEST, WIDEST)
    }

    pub fn has(self, tick: u32) -> bool {
        (self.first..=self.last).contains(&tick)
    }

    pub fn is_merged(self) -> bool {
        self.width() < NARROW_TICK * self.ticks()
    }

    /// Whether there is room for the task's releases and deadlines.
    pub fn has_marks(self, task: &Task) -> bool {
        i64::from(task.period) * self.width() >= NARROW_PERIOD * self.ticks()
    }

    /// The ticks that have a number under the lanes.
    pub fn numbered(self) -> impl Iterator<Item = u32> {
        let step = step(APART * self.ticks() / self.width());
        (self.first.div_ceil(step) * step..=self.last).step_by(step as usize)
    }
}

/// The least of 1, 2, 5, 10, 20, 50 and so on that is so many ticks or more.
fn step(ticks: i64) -> u32 {
    let mut decade = 1;
    loop {
        for step in [decade, 2 * decade, 5 * decade] {
            if i64::from(step) >= ticks {
                return step;
            }
        }
        decade *= 10;
    }
}

/// A window, and where its first tick stands.
pub struct Scale {
    pub window: Window,
    pub left: i64,
}

impl Scale {
    /// Where an instant stands; one outside of the window stands at its edge.
    pub fn x(&self, tick: u32) -> i64 {
        let Window { first, last } = self.window;
        let inside = i64::from(tick.clamp(first, last) - first);
        self.left + inside * self.window.width() / self.window.ticks()
    }

    /// Where the bars of these intervals begin and end, in their order. None of them is narrower than a pixel.
    pub fn bars(&self, intervals: impl Iterator<Item = (u32, u32)>) -> Vec<(i64, i64)> {
        let (window, is_merged) = (self.window, self.window.is_merged());
        let mut bars: Vec<(i64, i64)> = Vec::new();
        for (from, to) in intervals {
            if from == to || to <= window.first || from >= window.last {
                continue;
            }
            let (from, to) = match is_merged {
                true => (self.x(from) / PIXEL * PIXEL, (self.x(to) + PIXEL - 1) / PIXEL * PIXEL),
                false => (self.x(from), self.x(to)),
            };
            match bars.last_mut() {
                Some((_, last)) if is_merged && from < *last + PIXEL => *last = to.max(*last),
                _ => bars.push((from, to.max(from + PIXEL))),
            }
        }
        bars
    }
}

#[cfg(test)]
mod tests {
    use super::*;

    #[test]
    fn steps_between_numbers() {
        assert_eq!([0, 1, 2, 3, 6, 11, 21, 1_001].map(step), [1, 1, 2, 5, 10, 20, 50, 2_000]);
        let window = Window { first: 7_513, last: 8_103 };
        assert_eq!(window.numbered().take(3).collect::<Vec<_>>(), [7_550, 7_600, 7_650]);
        assert_eq!(Window { first: 0, last: 0 }.numbered().collect::<Vec<_>>(), [0]);
    }

    #[test]
    fn bars_side_by_side_and_merged() {
        let few = Scale { window: Window { first: 0, last: 10 }, left: 100 };
        let jobs = [(0, 2), (2, 2), (2, 4), (9, 12)];
        assert_eq!(few.bars(jobs.into_iter()), [(100, 1_300), (1_300, 2_500), (5_500, 6_100)]);
        let many = Scale { window: Window { first: 1_000, last: 12_800 }, left: 105 };
        let jobs = [(0, 900), (999, 1_001), (1_002, 1_003), (1_020, 1_021), (12_800, 13_000)];
        assert_eq!(many.bars(jobs.into_iter()), [(100, 110), (120, 130)]);
    }
}
