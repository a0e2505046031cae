//! `gorsetumble`: what a fitter types. It decides nothing: the proved programs' bytes go to standard output as they
//! are, the exit status is what they say, and words for a person go to standard error.
//!
//! `typed` reads the words that were typed; `answer` asks the programs through `run` and takes their listings apart by
//! `listing`; `unit` puts questions about copies of the unit's texts; `place` finds a proved place in a text, `cause`
//! says how such a byte usually gets there, and `words` has what is said. `chart` draws a rehearsal, which `bench`
//! foresees so that it can be held against the programs. `tidy` asks no program.
#![forbid(unsafe_code)]

mod answer;
mod bench;
mod cause;
mod chart;
mod listing;
mod place;
mod run;
mod tidy;
mod typed;
mod unit;
mod words;

use answer::{Answer, Asked, COULD_NOT};
use run::{Programs, Trouble};
use std::io::{self, Write};
use std::path::Path;
use std::process::ExitCode;
use typed::{Question, Request};

fn main() -> ExitCode {
    let status = match typed::request(std::env::args_os().skip(1)) {
        Ok(Request::Help) => printed(words::USAGE.as_bytes()),
        Ok(Request::Version) => printed(words::VERSION.as_bytes()),
        Ok(Request::Ask { question, folder, quiet }) => answered(&question, &folder, quiet),
        Ok(Request::Tidy { folder, into, quiet }) => tidy::run(&folder, into.as_deref(), quiet),
        Err(wrong) => {
            words::say(&words::wrong_words(&wrong));
            COULD_NOT
        }
    };
    ExitCode::from(status)
}

/// What was asked for without a program: to standard output, or a trouble.
fn printed(text: &[u8]) -> u8 {
    match written(text) {
        Ok(()) => answer::GOOD,
        Err(trouble) => failed(&trouble, false),
    }
}

/// The proved program's bytes to standard output, and only if they are out a chart, the words and the status.
fn answered(question: &Question, folder: &Path, quiet: bool) -> u8 {
    let answer = Programs::of_this_repository()
        .and_then(|programs| Asked { programs: &programs, folder, quiet }.answer(question));
    match answer.and_then(given) {
        Ok((status, words)) => {
            words::say(&words);
            status
        }
        Err(trouble) => failed(&trouble, quiet),
    }
}

fn given(answer: Answer) -> Result<(u8, String), Trouble> {
    written(&answer.bytes)?;
    if let Some(chart) = answer.chart {
        chart.put().map_err(|error| Trouble::NoChart(format!("it cannot be put in its place: {error}")))?;
    }
    Ok((answer.status, answer.words))
}

/// Whole and flushed, so that a full disk is seen before the exit status is given.
fn written(bytes: &[u8]) -> Result<(), Trouble> {
    let mut out = io::stdout().lock();
    out.write_all(bytes).and_then(|()| out.flush()).map_err(Trouble::NoStandardOutput)
}

fn failed(trouble: &Trouble, quiet: bool) -> u8 {
    if !quiet {
        words::say(&words::trouble(trouble));
    }
    COULD_NOT
}
