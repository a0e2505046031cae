//! The commands of the second program.
//!
//! ```text
//! oracle cases KIND COUNT SEED CASES EXPECTED   write cases of the kind (admission, machine, rehearsal, readers,
//!                                               writers, verdicts, texts) and the answers expected of them
//! oracle folders COUNT SEED FOLDER              write COUNT folders with the files of the programs and what
//!                                               they must write
//! oracle search TICKS SEED                      look for a counterexample to demand 3, and see how tight the test is
//! oracle judge CASES EXPECTED GOT               hold the answers that were got to those expected
//! ```

use oracle::{cases_admission, cases_machine, cases_rehearsal, cases_texts, files, folders, search};
use std::process::ExitCode;

fn number(word: &str) -> u64 {
    word.parse().unwrap_or_else(|_| panic!("'{word}' is no number"))
}

fn run(words: &[&str]) -> std::io::Result<bool> {
    match words {
        ["cases", kind, count, seed, cases, expected] => {
            let (count, seed, pair) = (number(count), number(seed), files::Pair::create(cases, expected)?);
            match *kind {
                "admission" => cases_admission::write(count, seed, pair),
                "machine" => cases_machine::write(count, seed, pair),
                "rehearsal" => cases_rehearsal::write(count, seed, pair),
                "readers" => cases_texts::write_readers(count, seed, pair),
                "writers" => cases_texts::write_writers(count, seed, pair),
                "verdicts" => cases_texts::write_verdicts(count, seed, pair),
                "texts" => cases_texts::write(count, seed, pair),
                _ => Err(std::io::Error::other(format!("no kind of case '{kind}'"))),
            }
        }
        ["folders", count, seed, folder] => folders::write(number(count), number(seed), folder),
        ["search", ticks, seed] => {
            let (passed, failed) = search::search(number(ticks), number(seed));
            println!("{passed} passed, {failed} failed");
            Ok(failed == 0)
        }
        ["judge", cases, expected, got] => {
            let (passed, failed) = files::judge(cases, expected, got)?;
            println!("{passed} passed, {failed} failed");
            Ok(failed == 0)
        }
        _ => Err(std::io::Error::other(
            "usage: oracle cases KIND COUNT SEED CASES EXPECTED | folders COUNT SEED FOLDER | search TICKS SEED | \
             judge CASES EXPECTED GOT",
        )),
    }
}

fn main() -> ExitCode {
    let words: Vec<String> = std::env::args().skip(1).collect();
    match run(&words.iter().map(String::as_str).collect::<Vec<_>>()) {
        Ok(true) => ExitCode::SUCCESS,
        Ok(false) => ExitCode::FAILURE,
        Err(e) => {
            eprintln!("oracle: {e}");
            ExitCode::from(2)
        }
    }
}
