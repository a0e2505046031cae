//! The chart of a rehearsal: a lane for each task, drawn from what the proved program `ticks` answered to the reports
//! of the rehearsal, as far as a ticks text has room for them.

pub mod file;
mod jobs;
mod layout;
mod scale;
mod svg;

use crate::bench::{End, Foreseen, Table};
use crate::listing::{self, Listing, Rehearsed};
use crate::run::{Program, Programs, Trouble};
use crate::unit::{Text, Unit};
use jobs::jobs;
use layout::Picture;
use scale::Window;

/// The SVG text, of a unit whose rehearsal has these rows.
pub fn drawn(programs: &Programs, unit: &Unit, rows: &[Rehearsed]) -> Result<String, Trouble> {
    let table = Table::of_unit(unit).ok_or(Trouble::Changed)?;
    let unlike = || Trouble::NoChart("the program rehearse lists no rehearsal of this table".into());
    let end = table.end(rows).ok_or_else(unlike)?;
    let foreseen = Foreseen::new(&table, end);
    let reports = Text::Bytes(foreseen.text.clone().into_bytes());
    let with_reports = Unit { platform: unit.platform.clone(), tasks: unit.tasks.clone(), reports };
    let bytes = with_reports.answer(programs, Program::Ticks)?;
    let Some(Listing::Rows(answered)) = listing::ticks(&bytes) else {
        return Err(Trouble::NoListing(Program::Ticks));
    };
    if let Some(why) = foreseen.difference(&answered, rows, end) {
        return Err(Trouble::NoChart(why));
    }
    let jobs = jobs(table.tasks.len(), &foreseen.reports, &answered);
    let last = answered.len().saturating_sub(1) as u32;
    Ok(Picture { table: &table, rows, end, window: window(&table, end, last), jobs: &jobs }.svg())
}

/// A late job is looked for at the end: of a longer rehearsal that ends in one, so many ticks before it are shown, and
/// some of the task's periods.
const BEFORE_LATE: u32 = 590;
const PERIODS_BEFORE_LATE: u32 = 3;

fn window(table: &Table, end: End, last: u32) -> Window {
    let first = match end.late {
        Some(task) if last == end.tick => {
            let periods = PERIODS_BEFORE_LATE.saturating_mul(table.tasks[task - 1].period);
            last.saturating_sub(periods.max(BEFORE_LATE))
        }
        _ => 0,
    };
    Window { first, last }
}
