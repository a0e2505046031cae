//! The two files of a comparison: cases, and the answers that are expected of them.

use crate::records::{answer_fields, case_fields, get, get_kind, put, show, Value};
use std::fs::File;
use std::io::{self, BufReader, BufWriter, Read, Write};

pub struct Pair {
    cases: BufWriter<File>,
    expected: BufWriter<File>,
    pub written: u64,
}

impl Pair {
    pub fn create(cases: &str, expected: &str) -> io::Result<Pair> {
        let open = |path: &str| Ok::<_, io::Error>(BufWriter::new(File::create(path)?));
        Ok(Pair { cases: open(cases)?, expected: open(expected)?, written: 0 })
    }

    pub fn write(&mut self, kind: u8, case: &[Value], answer: &[Value]) -> io::Result<()> {
        let mut bytes = vec![kind];
        put(&mut bytes, &case_fields(kind).expect("a kind of case"), case);
        self.cases.write_all(&bytes)?;
        bytes.clear();
        put(&mut bytes, &answer_fields(kind).expect("a kind of case"), answer);
        self.expected.write_all(&bytes)?;
        self.written += 1;
        Ok(())
    }

    pub fn close(mut self) -> io::Result<()> {
        self.cases.flush()?;
        self.expected.flush()
    }
}

/// Holds the answers that were got to those expected, record by record. The first that differs is shown whole. Answers
/// that are missing count as failed, and bytes after the last one as one more failure.
pub fn judge(cases: &str, expected: &str, got: &str) -> io::Result<(u64, u64)> {
    let open = |path: &str| Ok::<_, io::Error>(BufReader::new(File::open(path)?));
    let (mut cases, mut expected, mut got) = (open(cases)?, open(expected)?, open(got)?);
    let (mut passed, mut failed) = (0, 0);
    while let Some(kind) = get_kind(&mut cases)? {
        let fields = case_fields(kind).ok_or_else(|| io::Error::other(format!("no kind {kind}")))?;
        let case = get(&mut cases, &fields)?;
        let answers = answer_fields(kind).expect("a kind of case");
        let wanted = get(&mut expected, &answers)?;
        let answer = get(&mut got, &answers).ok();
        if answer.as_ref() == Some(&wanted) {
            passed += 1;
            continue;
        }
        failed += 1;
        if failed == 1 {
            println!("record {} differs: kind {}", passed + failed, char::from(kind));
            println!("  case      {}", show(&fields, &case));
            println!("  expected  {}", show(&answers, &wanted));
            println!("  got       {}", answer.as_ref().map_or("nothing".to_string(), |a| show(&answers, a)));
        }
    }
    if got.bytes().next().is_some() {
        println!("there are bytes after the last answer");
        failed += 1;
    }
    Ok((passed, failed))
}
