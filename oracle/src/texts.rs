//! The texts: what a good one is, how one is read, and how one is written.
//!
//! A text is good or it is not; that is one test on the whole. The offset of refusal 15 is then taken at its word: the
//! longest beginning that can be gone on with to a good text, found by trying to go on.

use crate::table::Refused;

/// A form of text: its header, and how many numbers stand in a row. Only the platform has exactly one row.
pub struct Form {
    pub header: &'static str,
    pub columns: usize,
    pub one_row: bool,
}

pub const PLATFORM: Form = Form { header: "cores,partitions", columns: 2, one_row: true };
pub const TASKS: Form = Form { header: "D,T,C,A", columns: 4, one_row: false };
pub const TICKS: Form = Form { header: "released,finished", columns: 2, one_row: false };

/// A number of a text: the digits with which it would be written, and no others.
fn number(field: &str) -> Option<u32> {
    let value: u32 = field.parse().ok()?;
    (value.to_string() == field).then_some(value)
}

fn row(form: &Form, line: &str) -> Option<Vec<u32>> {
    let numbers: Option<Vec<u32>> = line.split(',').map(number).collect();
    numbers.filter(|numbers| numbers.len() == form.columns)
}

/// The rows of a good text.
pub fn good(form: &Form, text: &[u8]) -> Option<Vec<Vec<u32>>> {
    let lines = std::str::from_utf8(text).ok()?.strip_suffix("\r\n")?;
    let mut lines = lines.split("\r\n");
    if lines.next() != Some(form.header) {
        return None;
    }
    let rows: Vec<Vec<u32>> = lines.map(|line| row(form, line)).collect::<Option<_>>()?;
    (!form.one_row || rows.len() == 1).then_some(rows)
}

/// Ends of good texts, one of which goes on from any beginning of `length` bytes that can be gone on with at all: the
/// rest of the header (and a row); the rest of a row, from a place where digits must or may stand; the end of a line;
/// nothing.
fn endings(form: &Form, length: usize) -> Vec<String> {
    let header = format!("{}\r\n", form.header);
    if length < header.len() {
        let row = if form.one_row { format!("0{}\r\n", ",0".repeat(form.columns - 1)) } else { String::new() };
        return header.get(length..).map(|rest| format!("{rest}{row}")).into_iter().collect();
    }
    let mut all = vec![String::new(), "\n".to_string()];
    for columns in 0..form.columns {
        for first in ["", "0"] {
            all.push(format!("{first}{}\r\n", ",0".repeat(columns)));
        }
    }
    all
}

/// Whether some good text begins so.
pub fn can_go_on(form: &Form, beginning: &[u8]) -> bool {
    endings(form, beginning.len()).iter().any(|end| good(form, &[beginning, end.as_bytes()].concat()).is_some())
}

/// The length of the longest beginning of the text that some good text also begins with. A beginning of a beginning is
/// one too, so the longest is found by halving.
pub fn offset(form: &Form, text: &[u8]) -> usize {
    let (mut fine, mut bad) = (0, text.len() + 1);
    while fine + 1 < bad {
        let middle = fine + (bad - fine) / 2;
        if can_go_on(form, &text[..middle]) {
            fine = middle;
        } else {
            bad = middle;
        }
    }
    fine
}

/// The rows of the text, or refusal 15.
pub fn read(form: &Form, text: &[u8]) -> Result<Vec<Vec<u32>>, Refused> {
    good(form, text).ok_or_else(|| Refused { number: 15, at: offset(form, text) as u64 })
}

/// The one good text with these rows.
pub fn write(form: &Form, rows: &[Vec<u32>]) -> Vec<u8> {
    let mut lines = vec![form.header.to_string()];
    lines.extend(rows.iter().map(|row| row.iter().map(u32::to_string).collect::<Vec<_>>().join(",")));
    lines.iter().flat_map(|line| format!("{line}\r\n").into_bytes()).collect()
}

/// Puts texts into buffers: all of them, or none and refusal 16 if one is longer than its buffer.
pub fn put(texts: &[Vec<u8>], buffers: &mut [Vec<u8>]) -> Result<(), Refused> {
    if texts.iter().zip(buffers.iter()).any(|(text, buffer)| text.len() > buffer.len()) {
        return Err(Refused { number: 16, at: 0 });
    }
    for (text, buffer) in texts.iter().zip(buffers) {
        buffer[..text.len()].copy_from_slice(text);
    }
    Ok(())
}

#[cfg(test)]
mod tests {
    use super::*;
    use crate::rng::Rng;

    fn at(form: &Form, text: &str) -> (u32, u64) {
        read(form, text.as_bytes()).map_or_else(|r| (r.number, r.at), |_| (0, 0))
    }

    #[test]
    fn good_texts() {
        assert_eq!(good(&PLATFORM, b"cores,partitions\r\n2,4\r\n"), Some(vec![vec![2, 4]]));
        assert_eq!(good(&TASKS, b"D,T,C,A\r\n"), Some(vec![]));
        assert_eq!(good(&TASKS, b"D,T,C,A\r\n1,2,3,4\r\n0,0,0,4294967295\r\n").unwrap().len(), 2);
        assert_eq!(good(&TICKS, b"released,finished\r\n"), Some(vec![]));
    }

    #[test]
    fn offsets() {
        assert_eq!(at(&TASKS, ""), (15, 0));
        assert_eq!(at(&TASKS, "D,T,C"), (15, 5));
        assert_eq!(at(&TASKS, "D,T,C,B"), (15, 6));
        assert_eq!(at(&TASKS, "\u{feff}D,T,C,A\r\n"), (15, 0));
        assert_eq!(at(&TASKS, "D,T,C,A\r"), (15, 8));
        assert_eq!(at(&TASKS, "D,T,C,A\n"), (15, 7));
        assert_eq!(at(&TASKS, "D,T,C,A\r\n1,2,3,4"), (15, 16));
        assert_eq!(at(&TASKS, "D,T,C,A\r\n1,2,3,4\n"), (15, 16));
        assert_eq!(at(&TASKS, "D,T,C,A\r\n1,2,3\r\n"), (15, 14));
        assert_eq!(at(&TASKS, "D,T,C,A\r\n1,2,3,4,5\r\n"), (15, 16));
        assert_eq!(at(&TASKS, "D,T,C,A\r\n\r\n"), (15, 9));
        assert_eq!(at(&TASKS, "D,T,C,A\r\n,"), (15, 9));
        assert_eq!(at(&TASKS, "D,T,C,A\r\n01,"), (15, 10));
        assert_eq!(at(&TASKS, "D,T,C,A\r\n00,"), (15, 10));
        assert_eq!(at(&TASKS, "D,T,C,A\r\n4294967295,"), (15, 20));
        assert_eq!(at(&TASKS, "D,T,C,A\r\n4294967296,"), (15, 18));
        assert_eq!(at(&TASKS, "D,T,C,A\r\n42949672950,"), (15, 19));
        assert_eq!(at(&TASKS, "D,T,C,A\r\n10000000000,"), (15, 19));
        assert_eq!(at(&TASKS, "D,T,C,A\r\n-1,"), (15, 9));
        assert_eq!(at(&TASKS, "D,T,C,A\r\n 1,"), (15, 9));
        assert_eq!(at(&TASKS, "D,T,C,A\r\n1,2,3,4\rX"), (15, 17));
        assert_eq!(at(&PLATFORM, "cores,partitions\r\n"), (15, 18));
        assert_eq!(at(&PLATFORM, "cores,partitions\r\n1,1\r\n1,1\r\n"), (15, 23));
        assert_eq!(at(&PLATFORM, "cores,partitions\r\n1,1\r\n\r\n"), (15, 23));
        assert_eq!(at(&PLATFORM, "cores,partitions\r\n1,1\r\n"), (0, 0));
        assert_eq!(at(&TICKS, "released,finished\r\n\"1\",0\r\n"), (15, 19));
        assert_eq!(at(&TICKS, "Released"), (15, 0));
    }

    #[test]
    fn a_damaged_row_500_has_its_offset() {
        let mut text = write(&TASKS, &vec![vec![1, 2, 3, 4]; 499]);
        assert_eq!(good(&TASKS, &text).unwrap().len(), 499);
        let length = text.len() as u64;
        text.extend(b"1,2,x,4\r\n");
        assert_eq!(read(&TASKS, &text), Err(Refused { number: 15, at: length + 4 }));
    }

    /// The finite list of endings is enough: over a small alphabet, no beginning that is said to lead nowhere does lead
    /// to a good text within a few bytes more.
    #[test]
    fn endings_suffice() {
        let alphabet = b"014,\r\n-";
        let few = Form { header: "h", columns: 2, one_row: false };
        let one = Form { header: "h", columns: 2, one_row: true };
        let mut beginnings: Vec<Vec<u8>> = vec![vec![]];
        for form in [&few, &one] {
            let mut level = vec![b"h\r\n".to_vec()];
            for _ in 0..5 {
                level = level.iter().flat_map(|b| alphabet.iter().map(move |&x| [&b[..], &[x]].concat())).collect();
                let goods = level.iter().filter(|text| good(form, text).is_some());
                for text in goods {
                    assert!((0..=text.len()).all(|i| can_go_on(form, &text[..i])), "{text:?}");
                }
                beginnings = level.clone();
            }
            // what is said to be open has a good text as a witness by its definition; and openness is never regained
            for text in &beginnings {
                let open: Vec<bool> = (0..=text.len()).map(|i| can_go_on(form, &text[..i])).collect();
                assert!(open.windows(2).all(|w| w[0] || !w[1]));
                assert_eq!(offset(form, text), open.iter().rposition(|&x| x).unwrap());
            }
        }
    }

    #[test]
    fn what_is_written_is_read() {
        let mut rng = Rng::new(2);
        for _ in 0..200 {
            let rows: Vec<Vec<u32>> =
                (0..rng.range(0, 40)).map(|_| (0..4).map(|_| rng.scaled(0, u32::MAX)).collect()).collect();
            let text = write(&TASKS, &rows);
            assert_eq!(good(&TASKS, &text), Some(rows));
            for i in 0..text.len() {
                assert!(can_go_on(&TASKS, &text[..i]));
            }
        }
    }

    #[test]
    fn buffers() {
        let texts = [b"abc".to_vec(), b"de".to_vec()];
        let fill = |a: usize, b: usize| [vec![9; a], vec![9; b]];
        let mut buffers = fill(3, 4);
        assert_eq!(put(&texts, &mut buffers), Ok(()));
        assert_eq!(buffers, [b"abc".to_vec(), b"de\x09\x09".to_vec()]);
        let mut buffers = fill(3, 1);
        assert_eq!(put(&texts, &mut buffers), Err(Refused { number: 16, at: 0 }));
        assert_eq!(buffers, fill(3, 1));
    }
}
