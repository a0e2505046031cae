//! Folders for the programs themselves: the files that they read, their standard input, and what they must write.

use crate::counts::Counts;
use crate::draw::texts::{three, Three};
use crate::programs::{adds_up, admit, explain, refused_by, rehearse, rows_of, ticks};
use crate::rng::Rng;
use std::fs;
use std::io;
use std::path::Path;

/// The name under which what a program wrote is counted: a listing, or the number of the refusal. A listing of
/// "rehearse" is of a table with a late job or of one without.
fn outcome(program: &str, wrote: &[u8]) -> String {
    let what = match refused_by(wrote) {
        Some(number) => format!("refusal {number}"),
        None if program != "rehearse" => "a listing".to_string(),
        None if rows_of(wrote).iter().any(|row| row[2] != 0) => "a listing, late".to_string(),
        None => "a listing, none late".to_string(),
    };
    format!("{program}: {what}")
}

/// The files that the programs read, in the folder.
fn put_files(rng: &mut Rng, files: &Path, given: &Three) -> io::Result<()> {
    fs::create_dir_all(files)?;
    for (name, text) in [("platform.csv", &given.platform), ("tasks.csv", &given.tasks)] {
        match text {
            Some(text) => fs::write(files.join(name), text)?,
            // a file that cannot be read counts as missing
            None if rng.once_in(2) => fs::create_dir(files.join(name))?,
            None => {}
        }
    }
    Ok(())
}

/// Writes folders 1, 2, .. with the files that the programs read, their standard input, and what "admit", "explain",
/// "rehearse" and "ticks" must write. False where an outcome of "explain" or "rehearse" is met less than once in 200
/// folders.
pub fn write(count_of: u64, seed: u64, folder: &str) -> io::Result<bool> {
    let mut rng = Rng::new(seed);
    let mut counts = Counts::default();
    for at in 1..=count_of {
        let given = three(&mut rng);
        let inside = Path::new(folder).join(at.to_string());
        put_files(&mut rng, &inside.join("files"), &given)?;
        fs::write(inside.join("stdin"), &given.ticks)?;
        let (platform, tasks) = (given.platform.as_deref(), given.tasks.as_deref());
        let (admits, explains) = (admit(platform, tasks), explain(platform, tasks));
        if !adds_up(platform, tasks, &admits, &explains) {
            return Err(io::Error::other(format!("folder {at}: the shares do not add up")));
        }
        fs::write(inside.join("admit"), admits)?;
        for (program, wrote) in [("explain", explains), ("rehearse", rehearse(platform, tasks))] {
            counts.add(outcome(program, &wrote));
            fs::write(inside.join(program), wrote)?;
        }
        fs::write(inside.join("ticks"), ticks(platform, tasks, &given.ticks))?;
    }
    println!("{count_of} folders:");
    counts.print();
    let refusals = |program: &str| [1, 2, 3, 4, 5, 6, 7, 8, 15].map(|number| format!("{program}: refusal {number}"));
    let mut wanted = [refusals("explain"), refusals("rehearse")].concat();
    wanted.extend(["explain: a listing", "rehearse: refusal 17"].map(String::from));
    wanted.extend(["rehearse: a listing, late", "rehearse: a listing, none late"].map(String::from));
    let rare = counts.rarer(&wanted.iter().map(String::as_str).collect::<Vec<_>>(), count_of / 200);
    if !rare.is_empty() {
        println!("met too seldom: {}", rare.join(", "));
    }
    Ok(rare.is_empty())
}
