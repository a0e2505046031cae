//! What the command answers: the proved program's bytes, the exit status that they mean, and words.

use crate::chart;
use crate::chart::file::Unplaced;
use crate::listing::{self, Listing, Margin, Refused, Rehearsed, Share, Tick};
use crate::place::{self, PLATFORM, REPORTS, TASKS};
use crate::run::{Program, Programs, Trouble};
use crate::typed::{Question, Reports};
use crate::unit::{self, Text, Unit};
use crate::words::margins::{Explained, Times};
use crate::words::refusal::Source;
use crate::words::{self, margins, refusal, rehearsal, ticks};
use std::path::Path;

pub const GOOD: u8 = 0;
pub const NOT_ADMITTED: u8 = 1;
pub const REFUSED: u8 = 2;
pub const COULD_NOT: u8 = 3;

pub struct Answer {
    pub bytes: Vec<u8>,
    pub status: u8,
    pub words: String,
    /// Written, and not yet in its place.
    pub chart: Option<Unplaced>,
}

/// Where the answers come from and for whom they are.
pub struct Asked<'a> {
    pub programs: &'a Programs,
    pub folder: &'a Path,
    pub quiet: bool,
}

impl Asked<'_> {
    pub fn answer(&self, question: &Question) -> Result<Answer, Trouble> {
        unit::ordinary(self.folder, &[PLATFORM.file, TASKS.file])?;
        match question {
            Question::Admit => self.admit(),
            Question::Explain => self.explain(),
            Question::Ticks { reports, every_row } => self.ticks(reports, *every_row),
            Question::Rehearse { chart } => self.rehearse(chart.as_deref()),
        }
    }

    fn admit(&self) -> Result<Answer, Trouble> {
        let (bytes, listing) = self.margins()?;
        let status = match &listing {
            Listing::Refused(_) => REFUSED,
            Listing::Rows(rows) => verdict(rows),
        };
        let words = self.words(|| match &listing {
            Listing::Refused(refused) => self.refusal_words(Program::Admit, &bytes, *refused, &NO_REPORTS),
            Listing::Rows(rows) if status == GOOD => margins::headline(rows),
            Listing::Rows(rows) => below(margins::headline(rows), self.not_admitted_words(&bytes, rows)),
        });
        Ok(Answer { bytes, status, words, chart: None })
    }

    fn explain(&self) -> Result<Answer, Trouble> {
        let bytes = self.programs.run(Program::Explain, self.folder, &[])?;
        let shares = match listing::shares(&bytes).ok_or(Trouble::NoListing(Program::Explain))? {
            Listing::Rows(shares) => shares,
            Listing::Refused(refused) => {
                let words = self.words(|| self.refusal_words(Program::Explain, &bytes, refused, &NO_REPORTS));
                return Ok(Answer { bytes, status: REFUSED, words, chart: None });
            }
        };
        // The listing of shares has no verdict: that is `admit`'s.
        let (margin_bytes, Listing::Rows(rows)) = self.margins()? else {
            return Err(Trouble::Changed);
        };
        let words = self.words(|| {
            let every_task = self.every_task_words(&margin_bytes, &rows, &bytes, shares);
            below(margins::headline(&rows), every_task)
        });
        Ok(Answer { bytes, status: verdict(&rows), words, chart: None })
    }

    fn every_task_words(
        &self,
        margin_bytes: &[u8],
        rows: &[Margin],
        share_bytes: &[u8],
        shares: Vec<Share>,
    ) -> Result<String, Trouble> {
        let unit = self.same_unit(Program::Admit, margin_bytes, &NO_REPORTS)?;
        if unit.answer(self.programs, Program::Explain)? != share_bytes {
            return Err(Trouble::Changed);
        }
        Ok(margins::every_task(rows, &explained(&unit, rows.len(), shares)?))
    }

    fn ticks(&self, reports: &Reports, every_row: bool) -> Result<Answer, Trouble> {
        let reports = self.reports(reports)?;
        let bytes = self.programs.run(Program::Ticks, self.folder, reports.text.given())?;
        let listing = listing::ticks(&bytes).ok_or(Trouble::NoListing(Program::Ticks))?;
        let status = match &listing {
            Listing::Refused(_) => REFUSED,
            Listing::Rows(rows) if rows.iter().all(on_time) => GOOD,
            Listing::Rows(_) => NOT_ADMITTED,
        };
        let words = self.words(|| match &listing {
            Listing::Refused(refused) => self.refusal_words(Program::Ticks, &bytes, *refused, &reports),
            Listing::Rows(rows) => below(String::new(), ticks_words(&reports, rows, every_row)),
        });
        Ok(Answer { bytes, status, words, chart: None })
    }

    fn rehearse(&self, chart: Option<&Path>) -> Result<Answer, Trouble> {
        let bytes = self.programs.run(Program::Rehearse, self.folder, &[])?;
        let rows = match listing::rehearsal(&bytes).ok_or(Trouble::NoListing(Program::Rehearse))? {
            Listing::Rows(rows) => rows,
            Listing::Refused(refused) => {
                let words = self.words(|| {
                    let words = self.refusal_words(Program::Rehearse, &bytes, refused, &NO_REPORTS);
                    words + &chart.map(rehearsal::of_no_chart).unwrap_or_default()
                });
                return Ok(Answer { bytes, status: REFUSED, words, chart: None });
            }
        };
        let drawn = chart.map(|file| self.chart(file, &bytes, &rows)).transpose()?;
        let words = self.words(|| {
            let words = rehearsal::of_rows(&rows, self.folder);
            words + &chart.map(rehearsal::of_chart).unwrap_or_default()
        });
        let status = if rows.iter().all(|row| row.late == 0) { GOOD } else { NOT_ADMITTED };
        Ok(Answer { bytes, status, words, chart: drawn })
    }

    fn chart(&self, file: &Path, bytes: &[u8], rows: &[Rehearsed]) -> Result<Unplaced, Trouble> {
        let unit = self.same_unit(Program::Rehearse, bytes, &NO_REPORTS)?;
        let svg = chart::drawn(self.programs, &unit, rows)?;
        let unwritten = |error| Trouble::NoChart(format!("{} cannot be written: {error}", words::shown(file)));
        Unplaced::new(file, svg.as_bytes()).map_err(unwritten)
    }

    fn margins(&self) -> Result<(Vec<u8>, Listing<Margin>), Trouble> {
        let bytes = self.programs.run(Program::Admit, self.folder, &[])?;
        let listing = listing::margins(&bytes).ok_or(Trouble::NoListing(Program::Admit))?;
        Ok((bytes, listing))
    }

    fn reports(&self, reports: &Reports) -> Result<Named, Trouble> {
        Ok(match reports {
            Reports::OfFolder => {
                unit::ordinary(self.folder, &[REPORTS.file])?;
                let text = Text::of_file(&self.folder.join(REPORTS.file));
                Named { name: REPORTS.file.into(), in_folder: true, text }
            }
            Reports::File(path) => Named { name: words::shown(path), in_folder: false, text: Text::of_file(path) },
            Reports::StandardInput => {
                Named { name: "standard input".into(), in_folder: false, text: Text::of_standard_input() }
            }
        })
    }

    fn words(&self, words: impl FnOnce() -> String) -> String {
        match self.quiet {
            true => String::new(),
            false => words(),
        }
    }

    /// The unit's texts, if they still give the answer that was shown.
    fn same_unit(&self, program: Program, bytes: &[u8], reports: &Named) -> Result<Unit, Trouble> {
        let unit = Unit::of_folder(self.folder, reports.text.clone());
        match unit.answer(self.programs, program)? == bytes {
            true => Ok(unit),
            false => Err(Trouble::Changed),
        }
    }

    fn refusal_words(&self, program: Program, bytes: &[u8], refused: Refused, reports: &Named) -> String {
        let details = match refused.number {
            1..=8 => self.table_words(program, bytes, refused, reports),
            15 => self.text_words(program, refused, reports),
            17 => Ok(refusal::of_periods()),
            number => Ok(refusal::of_number(number)),
        };
        below(refusal::headline(refused.number), details)
    }

    fn table_words(
        &self,
        program: Program,
        bytes: &[u8],
        refused: Refused,
        reports: &Named,
    ) -> Result<String, Trouble> {
        let unit = self.same_unit(program, bytes, reports)?;
        refusal::of_table(&unit, refused).ok_or(Trouble::Changed)
    }

    fn text_words(&self, program: Program, refused: Refused, reports: &Named) -> Result<String, Trouble> {
        let unit = Unit::of_folder(self.folder, reports.text.clone());
        let form = unit.refused_text(self.programs, program, refused)?.ok_or(Trouble::Changed)?;
        let source = match form.file == REPORTS.file {
            true => Source { name: &reports.name, in_folder: reports.in_folder, folder: self.folder },
            false => Source { name: form.file, in_folder: true, folder: self.folder },
        };
        refusal::of_text(&source, form, unit.text(form), refused.row).ok_or(Trouble::Changed)
    }

    fn not_admitted_words(&self, bytes: &[u8], rows: &[Margin]) -> Result<String, Trouble> {
        if !self.programs.built(Program::Explain) {
            let why = words::no_words(&Trouble::NotBuilt(Program::Explain));
            return Ok(margins::margins_only(rows) + &why);
        }
        let unit = self.same_unit(Program::Admit, bytes, &NO_REPORTS)?;
        let listed = unit.answer(self.programs, Program::Explain)?;
        let Some(Listing::Rows(shares)) = listing::shares(&listed) else {
            return Err(Trouble::NoListing(Program::Explain));
        };
        let explained = explained(&unit, rows.len(), shares)?;
        Ok(margins::not_admitted(rows, &explained))
    }
}

/// A ticks text, and what it goes by.
struct Named {
    name: String,
    in_folder: bool,
    text: Text,
}

const NO_REPORTS: Named = Named { name: String::new(), in_folder: false, text: Text::Missing };

/// The headline, which rests on the listing alone, and the details below it or why there are none. Words about texts
/// that are no longer those of the listing are not said at all.
fn below(headline: String, details: Result<String, Trouble>) -> String {
    match details {
        Ok(details) => headline + &details,
        Err(Trouble::Changed) => words::CHANGED.into(),
        Err(trouble) => headline + &words::no_words(&trouble),
    }
}

fn verdict(rows: &[Margin]) -> u8 {
    match rows.iter().all(|row| row.passes) {
        true => GOOD,
        false => NOT_ADMITTED,
    }
}

fn on_time(row: &Tick) -> bool {
    row.refused == 0 && row.late == 0
}

/// The times of the unit's tasks beside their shares; both have to be of as many tasks as the margins.
fn explained(unit: &Unit, tasks: usize, shares: Vec<Share>) -> Result<Explained, Trouble> {
    let rows = place::rows(&TASKS, unit.tasks.given()).ok_or(Trouble::Changed)?;
    let times: Vec<Times> = rows.iter().map(|(_, row)| Times { deadline: row[0], run: row[2] }).collect();
    match times.len() == tasks && shares.len() == tasks * tasks {
        true => Ok(Explained { times, shares }),
        false => Err(Trouble::Changed),
    }
}

fn ticks_words(reports: &Named, rows: &[Tick], every_row: bool) -> Result<String, Trouble> {
    let read = place::rows(&REPORTS, reports.text.given()).ok_or(Trouble::Changed)?;
    let sets: Vec<ticks::Report> = read.iter().map(|(_, row)| (row[0], row[1])).collect();
    if sets.len() != rows.len() {
        return Err(Trouble::Changed);
    }
    let all = if every_row { ticks::every_row(rows) } else { String::new() };
    Ok(all + &ticks::summary(&reports.name, rows, &sets))
}

#[cfg(test)]
mod tests {
    use super::*;
    use crate::run::Scratch;
    use std::fs;
    use std::os::unix::fs::symlink;

    const PLATFORM_P2: &str = "cores,partitions\r\n1,1\r\n";
    const TASKS_TWO: &str = "D,T,C,A\r\n6,6,2,1\r\n7,9,3,1\r\n";

    /// A repository whose programs do what a piece of bash says, and a unit's folder, which alone has a file `here`.
    struct StandIn {
        root: Scratch,
        unit: Scratch,
    }

    impl StandIn {
        fn new(programs: &[&str], behaviour: &str) -> StandIn {
            let stand_in = StandIn { root: Scratch::new().unwrap(), unit: Scratch::new().unwrap() };
            let (root, unit) = (&stand_in.root, &stand_in.unit);
            fs::create_dir_all(root.path.join("tools")).unwrap();
            fs::create_dir_all(root.path.join("target/bin")).unwrap();
            symlink(concat!(env!("CARGO_MANIFEST_DIR"), "/tests/stand-in"), root.path.join("tools/run")).unwrap();
            for program in programs {
                fs::write(root.path.join("target/bin").join(program), "").unwrap();
            }
            root.put("behaviour", behaviour.as_bytes()).unwrap();
            unit.put("here", b"").unwrap();
            unit.put("platform.csv", PLATFORM_P2.as_bytes()).unwrap();
            unit.put("tasks.csv", TASKS_TWO.as_bytes()).unwrap();
            stand_in
        }

        fn ask(&self, question: &Question) -> Result<Answer, Trouble> {
            let programs = Programs::at(&self.root.path);
            Asked { programs: &programs, folder: &self.unit.path, quiet: false }.answer(question)
        }

        fn answer(&self, question: &Question) -> (String, u8, String) {
            let answer = self.ask(question).unwrap();
            (String::from_utf8(answer.bytes).unwrap(), answer.status, answer.words)
        }
    }

    const TICKS: Question = Question::Ticks { reports: Reports::OfFolder, every_row: false };

    const TWO_FAIL: &str = r"case $1 in
        admit) printf 'task,margin,pass\r\n1,-6,0\r\n2,-6,0\r\n' ;;
        explain)
            printf 'task,other,interference,weight,share\r\n1,1,4,1,4\r\n1,2,6,1,6\r\n'
            printf '2,1,4,1,4\r\n2,2,6,1,6\r\n' ;;
        esac";

    #[test]
    fn who_takes_what_of_a_task_that_does_not_pass() {
        let stand_in = StandIn::new(&["admit", "explain"], TWO_FAIL);
        let (bytes, status, words) = stand_in.answer(&Question::Admit);
        assert_eq!(bytes, "task,margin,pass\r\n1,-6,0\r\n2,-6,0\r\n");
        assert_eq!(status, NOT_ADMITTED);
        let wanted = "not admitted: tasks 1 and 2 of 2 do not pass; the least margin is task 1's, -6\n\
            task 1: margin -6: it passes from 1 on, 7 more\n\
            \x20 slack: D - C = 6 - 2 = 4 ticks\n\
            \x20 load 10, limit 4: the load must fall below the limit: by at least 7\n\
            \x20   task 2 takes 6 of 10 (60 %)\n\
            \x20   its own jobs take 4 of 10 (40 %)\n\
            task 2: margin -6: it passes from 1 on, 7 more\n\
            \x20 slack: D - C = 7 - 3 = 4 ticks\n\
            \x20 load 10, limit 4: the load must fall below the limit: by at least 7\n\
            \x20   its own jobs take 6 of 10 (60 %)\n\
            \x20   task 1 takes 4 of 10 (40 %)\n\
            usually helps (no theorem";
        assert!(words.starts_with(wanted), "{words}");
        let (bytes, status, explained) = stand_in.answer(&Question::Explain);
        assert!(bytes.starts_with("task,other"));
        assert_eq!((status, explained), (NOT_ADMITTED, words));
    }

    #[test]
    fn without_explain_there_are_margins_only() {
        let (_, status, words) = StandIn::new(&["admit"], TWO_FAIL).answer(&Question::Admit);
        assert_eq!(status, NOT_ADMITTED);
        assert!(words.contains("task 2: margin -6: it passes from 1 on, 7 more\nno words for it: the program explain"));
    }

    #[test]
    fn a_folder_that_changes_gets_no_words_and_keeps_its_status() {
        let behaviour = r"case $1,$([ -e here ] && echo unit) in
            admit,unit) printf 'task,margin,pass\r\n1,-6,0\r\n2,-6,0\r\n' ;;
            admit,) printf 'task,margin,pass\r\n1,-6,0\r\n2,-7,0\r\n' ;;
            explain,unit) printf 'refused,row\r\n6,1\r\n' ;;
            explain,) printf 'refused,row\r\n6,2\r\n' ;;
            ticks,unit) printf 'refused,row\r\n15,3\r\n' ;;
            ticks,) printf 'refused,row\r\n15,4\r\n' ;;
            esac";
        let stand_in = StandIn::new(&["admit", "explain", "ticks"], behaviour);
        for (question, status) in [(Question::Admit, NOT_ADMITTED), (Question::Explain, REFUSED), (TICKS, REFUSED)] {
            let (_, got, words) = stand_in.answer(&question);
            assert_eq!((got, words.as_str()), (status, words::CHANGED));
        }
    }

    #[test]
    fn words_that_do_not_fit_the_texts_are_not_said() {
        let refused = StandIn::new(&["admit"], r"printf 'refused,row\r\n6,1\r\n'").answer(&Question::Admit);
        assert_eq!((refused.1, refused.2.as_str()), (REFUSED, words::CHANGED));
        let explain = r"case $1 in
            admit) printf 'refused,row\r\n6,1\r\n' ;;
            explain) printf 'task,other,interference,weight,share\r\n1,1,4,1,4\r\n' ;;
            esac";
        let changed = StandIn::new(&["admit", "explain"], explain).ask(&Question::Explain);
        assert!(matches!(changed, Err(Trouble::Changed)));
    }

    /// The stand-in refuses a text by a word in it, platform first, as the programs do.
    const BY_WORD: &str = r"for file in platform.csv tasks.csv /dev/stdin; do
            if grep -q WRONG $file; then printf 'refused,row\r\n15,0\r\n'; exit; fi
        done
        printf 'tick,refused,finished,late,started\r\n'";

    #[test]
    fn which_text_is_refused_is_the_programs_answer() {
        for (wrong, named) in [
            (vec!["platform.csv"], "platform.csv"),
            (vec!["platform.csv", "tasks.csv"], "platform.csv"),
            (vec!["tasks.csv"], "tasks.csv"),
            (vec!["reports.csv"], "reports.csv"),
            (vec!["tasks.csv", "reports.csv"], "tasks.csv"),
        ] {
            let stand_in = StandIn::new(&["ticks"], BY_WORD);
            stand_in.unit.put("reports.csv", b"released,finished\r\n").unwrap();
            for file in wrong {
                stand_in.unit.put(file, b"WRONG").unwrap();
            }
            let (_, status, words) = stand_in.answer(&TICKS);
            assert_eq!(status, REFUSED);
            assert!(words.contains(&format!("  where: {named}, line 1 (the header), column 1; place 0")), "{words}");
        }
    }

    #[test]
    fn another_place_in_an_earlier_text_is_a_change() {
        let behaviour = r"if [ -e here ]; then printf 'refused,row\r\n15,0\r\n'
            elif grep -q WRONG platform.csv; then printf 'refused,row\r\n15,3\r\n'
            elif grep -q WRONG tasks.csv; then printf 'refused,row\r\n15,0\r\n'
            fi";
        let stand_in = StandIn::new(&["admit"], behaviour);
        stand_in.unit.put("platform.csv", b"corWRONG").unwrap();
        stand_in.unit.put("tasks.csv", b"WRONG").unwrap();
        assert_eq!(stand_in.answer(&Question::Admit).2, words::CHANGED);
    }

    #[test]
    fn what_ticks_come_to() {
        for (rows, status) in [
            ("", GOOD),
            ("0,0,0,0,3\r\n1,0,1,0,0\r\n", GOOD),
            ("0,0,0,0,3\r\n1,0,0,2,0\r\n", NOT_ADMITTED),
            ("0,0,0,0,3\r\n1,11,0,0,0\r\n", NOT_ADMITTED),
        ] {
            let behaviour = format!("printf 'tick,refused,finished,late,started\r\n{rows}'");
            assert_eq!(StandIn::new(&["ticks"], &behaviour).answer(&TICKS).1, status, "{rows}");
        }
    }

    #[test]
    fn ticks_in_words() {
        let behaviour = r"printf 'tick,refused,finished,late,started\r\n0,0,0,0,3\r\n1,12,0,0,0\r\n1,0,1,10,4\r\n'";
        let stand_in = StandIn::new(&["ticks"], behaviour);
        stand_in.unit.put("reports.csv", b"released,finished\r\n7,0\r\n1,9\r\n0,1\r\n").unwrap();
        let (_, status, words) = stand_in.answer(&Question::Ticks { reports: Reports::OfFolder, every_row: true });
        assert_eq!(status, NOT_ADMITTED);
        let wanted = "tick 0: started tasks 1 and 2\n\
            tick 1: refused, number 12: a task is released before its period is over\n\
            tick 1: finished task 1; late tasks 2 and 4; started task 3\n\
            3 rows: 2 ticks taken, 1 row refused, 1 tick with late tasks\n\
            reports.csv, line 3 (row 2): refused, number 12: a task is released before its period is over\n\
            \x20 the row: released task 1; finished tasks 1 and 4. Nothing happened, the tick is not counted\n\
            \x20 cure: its T is too large, or the sender sends too often\n\
            reports.csv, line 4 (row 3), tick 1: late: tasks 2 and 4\n";
        assert!(words.starts_with(wanted), "{words}");
        let other = StandIn::new(&["ticks"], r"printf 'tick,refused,finished,late,started\r\n0,0,0,0,3\r\n'");
        other.unit.put("reports.csv", b"released,finished\r\n3,0\r\n0,0\r\n").unwrap();
        assert_eq!(other.answer(&TICKS).2, words::CHANGED);
    }

    const REHEARSE: Question = Question::Rehearse { chart: None };

    #[test]
    fn what_a_rehearsal_comes_to() {
        for (written, status, headline) in [
            (r"task,started,late\r\n1,3,0\r\n2,2,0\r\n", GOOD, "none late: no job missed its deadline"),
            (
                r"task,started,late\r\n1,1,0\r\n2,0,7\r\n",
                NOT_ADMITTED,
                "late: a job of task 2 missed its deadline at tick 7,",
            ),
            (r"refused,row\r\n17,0\r\n", REFUSED, "refused, number 17: the least common multiple"),
        ] {
            let (_, got, words) = StandIn::new(&["rehearse"], &format!("printf '{written}'")).answer(&REHEARSE);
            assert_eq!(got, status);
            assert!(words.starts_with(headline), "{words}");
        }
        let no_listing =
            StandIn::new(&["rehearse"], r"printf 'task,started,late\r\n1,1,7\r\n2,0,7\r\n'").ask(&REHEARSE);
        assert!(matches!(no_listing, Err(Trouble::NoListing(Program::Rehearse))));
    }

    /// One task 4,4,2,1, which starts one job, as `rehearse` and `ticks` list it.
    const ONE_TASK: &str = r"case $1 in
        rehearse) printf 'task,started,late\r\n1,1,0\r\n' ;;
        ticks)
            printf 'tick,refused,finished,late,started\r\n'
            printf '0,0,0,0,1\r\n1,0,0,0,0\r\n2,0,1,0,0\r\n3,0,0,0,0\r\n4,0,0,0,0\r\n' ;;
        esac";

    fn with_chart(programs: &[&str], behaviour: &str, name: &str) -> (StandIn, Result<Answer, Trouble>) {
        let stand_in = StandIn::new(programs, behaviour);
        stand_in.unit.put("tasks.csv", b"D,T,C,A\r\n4,4,2,1\r\n").unwrap();
        stand_in.unit.put("chart.svg", b"old").unwrap();
        let answer = stand_in.ask(&Question::Rehearse { chart: Some(stand_in.unit.path.join(name)) });
        (stand_in, answer)
    }

    #[test]
    fn a_chart_is_put_in_its_place_last() {
        let (stand_in, answer) = with_chart(&["rehearse", "ticks"], ONE_TASK, "chart.svg");
        let chart = || fs::read_to_string(stand_in.unit.path.join("chart.svg")).unwrap();
        let answer = answer.unwrap();
        assert!(answer.words.ends_with("/chart.svg\n"), "{}", answer.words);
        assert_eq!(chart(), "old");
        answer.chart.expect("a chart").put().unwrap();
        assert!(chart().starts_with("<svg ") && chart().ends_with("</svg>\n"), "{}", chart());
        let (_, refused) = with_chart(&["rehearse"], r"printf 'refused,row\r\n17,0\r\n'", "chart.svg");
        let refused = refused.unwrap();
        assert!(refused.chart.is_none() && refused.words.contains("so no chart is drawn: "), "{}", refused.words);
    }

    #[test]
    fn a_chart_that_nobody_vouches_for_is_not_drawn() {
        let otherwise = |from: &str, to: &str| ONE_TASK.replace(from, to);
        for (behaviour, name, wanted) in [
            (otherwise("2,0,1,0,0", "2,0,0,0,0"), "chart.svg", "at tick 2 the program ticks answers otherwise"),
            (otherwise("1,1,0", "1,2,0"), "chart.svg", "lists no rehearsal of this table"),
            (otherwise("1,1,0", "1,1,3"), "chart.svg", "at tick 4 the program ticks answers otherwise"),
            (otherwise("1,1,0", r"1,1,0\r\n2,1,0"), "chart.svg", "lists no rehearsal of this table"),
            (ONE_TASK.into(), "nowhere/chart.svg", "cannot be written"),
        ] {
            let (stand_in, answer) = with_chart(&["rehearse", "ticks"], &behaviour, name);
            match answer.err() {
                Some(Trouble::NoChart(why)) => assert!(why.contains(wanted), "{why}"),
                other => panic!("{wanted}: {other:?}"),
            }
            assert_eq!(fs::read(stand_in.unit.path.join("chart.svg")).unwrap(), b"old");
            assert_eq!(fs::read_dir(&stand_in.unit.path).unwrap().count(), 4, "nothing is left");
        }
        let (_, not_built) = with_chart(&["rehearse"], ONE_TASK, "chart.svg");
        assert!(matches!(not_built, Err(Trouble::NotBuilt(Program::Ticks))));
        let changes = otherwise("rehearse) ", r"rehearse) [ -e here ] || { printf 'refused,row\r\n6,1\r\n'; exit; }; ");
        let (_, changed) = with_chart(&["rehearse", "ticks"], &changes, "chart.svg");
        assert!(matches!(changed, Err(Trouble::Changed)));
    }

    #[test]
    fn what_cannot_run_is_no_answer() {
        let no = |programs: &[&str], behaviour: &str| StandIn::new(programs, behaviour).ask(&Question::Admit).err();
        assert!(matches!(no(&[], "exit 0"), Some(Trouble::NotBuilt(Program::Admit))));
        assert!(matches!(no(&["admit"], "exit 0"), Some(Trouble::NoListing(Program::Admit))));
        assert!(matches!(no(&["admit"], "printf 'task,margin,pass\\r\\n'"), Some(Trouble::NoListing(_))));
        let good_but_failed = r"printf 'task,margin,pass\r\n1,232,1\r\n'; echo oh >&2; exit 7";
        match no(&["admit"], good_but_failed) {
            Some(Trouble::Failed { ended, said, .. }) => assert_eq!((&*ended, &*said), ("exit status 7", "oh\n")),
            other => panic!("{other:?}"),
        }
        match no(&["admit"], "kill -SEGV $$") {
            Some(Trouble::Failed { ended, .. }) => assert_eq!(ended, "signal 11"),
            other => panic!("{other:?}"),
        }
    }

    #[test]
    fn words_that_cannot_be_made_leave_the_headline() {
        let behaviour = r"[ -e here ] || exit 1
            case $1 in
            admit) printf 'task,margin,pass\r\n1,1,1\r\n2,-6,0\r\n' ;;
            ticks) printf 'refused,row\r\n15,0\r\n' ;;
            esac";
        let stand_in = StandIn::new(&["admit", "ticks", "explain"], behaviour);
        for (question, status, headline) in [
            (
                Question::Admit,
                NOT_ADMITTED,
                "not admitted: task 2 of 2 does not pass; the least margin is task 2's, -6",
            ),
            (TICKS, REFUSED, "refused, number 15: a text is not of the wanted form"),
        ] {
            let (_, got, words) = stand_in.answer(&question);
            assert_eq!(got, status);
            assert!(words.starts_with(&format!("{headline}\nno words for it: the program ")), "{words}");
        }
    }

    #[test]
    fn a_program_that_reads_nothing_is_fed_without_harm() {
        let stand_in = StandIn::new(&["ticks"], r"printf 'refused,row\r\n6,1\r\n'");
        stand_in.unit.put("reports.csv", &vec![b'0'; 10_000_000]).unwrap();
        assert_eq!(stand_in.answer(&TICKS).1, REFUSED);
    }

    #[test]
    fn quiet_says_nothing_and_asks_once() {
        let stand_in =
            StandIn::new(&["admit", "explain"], &format!("echo $1 >>\"$(dirname \"$0\")/asked\"\n{TWO_FAIL}"));
        let programs = Programs::at(&stand_in.root.path);
        let answer =
            Asked { programs: &programs, folder: &stand_in.unit.path, quiet: true }.answer(&Question::Admit).unwrap();
        assert_eq!((answer.status, answer.words.as_str()), (NOT_ADMITTED, ""));
        assert_eq!(fs::read_to_string(stand_in.root.path.join("tools/asked")).unwrap(), "admit\n");
    }
}
