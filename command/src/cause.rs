//! The likely cause of refusal 15 and its cure: one ordered table. The proved place decides where the fault is; a cause
//! only says how such a byte usually gets there.

use crate::place::{Form, Place, Rows, State, PLATFORM, REPORTS, TASKS};
use crate::unit::{Text, LONGEST};

/// A text that the proved program refused under 15.
pub struct Fault<'a> {
    pub form: &'static Form,
    pub text: &'a Text,
    pub place: Place,
}

pub struct Cause {
    pub name: &'static str,
    applies: fn(&Fault) -> bool,
    pub likely: &'static str,
    pub cure: &'static str,
    /// Whether `gorsetumble tidy` mends it in a text.
    tidy: bool,
}

impl Cause {
    /// `tidy` leaves a file with a NUL in it as it is, but for UTF-16, which is full of them.
    pub fn is_mended_by_tidy(&self, fault: &Fault) -> bool {
        self.tidy && (utf16_marked(fault) || !fault.bytes().contains(&0))
    }
}

impl Fault<'_> {
    pub fn bytes(&self) -> &[u8] {
        self.text.given()
    }

    /// What stands at the place; `None` is the end of the file.
    pub fn found(&self) -> Option<u8> {
        self.bytes().get(self.place.offset).copied()
    }

    /// Whether the fault is a place in the text, and not the text as a whole.
    pub fn has_place(&self) -> bool {
        matches!(self.text, Text::Bytes(bytes) if !bytes.is_empty() && bytes.len() <= LONGEST)
    }

    fn is(&self, bytes: &[u8]) -> bool {
        self.found().is_some_and(|byte| bytes.contains(&byte))
    }

    /// From the place on.
    fn rest(&self) -> &[u8] {
        self.bytes().get(self.place.offset..).unwrap_or_default()
    }

    /// The whole line of the place, without its end.
    fn line(&self) -> &[u8] {
        let line = self.bytes().get(self.place.line_start()..).unwrap_or_default();
        line.split(|&byte| byte == b'\r' || byte == b'\n').next().unwrap_or_default()
    }

    fn line_has(&self, byte: u8) -> bool {
        self.line().contains(&byte)
    }

    fn in_header(&self) -> bool {
        matches!(self.place.state, State::Header(_))
    }

    fn whole_header(&self) -> bool {
        self.place.state == State::Header(self.form.header.len())
    }

    fn in_last_column(&self) -> bool {
        matches!(self.place.state, State::Within { column, .. } if column + 1 == self.form.columns)
    }

    fn number_due(&self) -> bool {
        matches!(self.place.state, State::LineStart | State::Before { .. })
    }

    fn may(&self, byte: u8) -> bool {
        self.place.may_stand(self.form).contains(&byte)
    }

    fn after_the_one_row(&self) -> bool {
        self.form.rows == Rows::One && self.place.state == State::LineStart && self.place.row() > 1
    }
}

/// The first cause of the table that fits; the last one fits always.
pub fn cause(fault: &Fault) -> &'static Cause {
    let last = CAUSES.len() - 1;
    CAUSES.iter().find(|cause| (cause.applies)(fault)).unwrap_or(&CAUSES[last])
}

/// The names of the header, in an order that does not depend on how they stand.
fn names(line: &[u8]) -> Vec<Vec<u8>> {
    let mut names: Vec<Vec<u8>> = line.split(|&byte| byte == b',').map(<[u8]>::to_ascii_lowercase).collect();
    names.sort();
    names
}

fn begins_with_another_header(fault: &Fault) -> bool {
    let others = [&PLATFORM, &TASKS, &REPORTS].into_iter().filter(|form| form.header != fault.form.header);
    fault.in_header() && others.into_iter().any(|form| fault.bytes().starts_with(form.header.as_bytes()))
}

/// A zip archive, as .xlsx and .ods are, or the older .xls.
fn spreadsheet(fault: &Fault) -> bool {
    let zip = fault.bytes().starts_with(b"PK") && fault.bytes().get(2).is_some_and(|&byte| byte < 0x20);
    zip || fault.bytes().starts_with(b"\xD0\xCF\x11\xE0")
}

fn utf16_marked(fault: &Fault) -> bool {
    fault.bytes().starts_with(b"\xFF\xFE") || fault.bytes().starts_with(b"\xFE\xFF")
}

fn utf16_marked_ascii(fault: &Fault) -> bool {
    let little = fault.bytes().starts_with(b"\xFF\xFE");
    let ascii = |pair: &[u8]| match *pair {
        [first, second] if little => first < 0x80 && second == 0,
        [first, second] => first == 0 && second < 0x80,
        _ => false,
    };
    utf16_marked(fault) && fault.bytes()[2..].chunks(2).all(ascii)
}

fn utf16_unmarked(fault: &Fault) -> bool {
    let first = fault.form.header.as_bytes()[0];
    fault.found() == Some(0) && (fault.bytes().starts_with(&[first, 0]) || fault.bytes().starts_with(&[0, first]))
}

/// A control byte that no text has.
fn binary(fault: &Fault) -> bool {
    fault.found().is_some_and(|byte| (byte < 0x20 && !b"\t\r\n\x1A".contains(&byte)) || byte == 0x7F)
}

fn blank(fault: &Fault) -> bool {
    fault.is(b" \xA0") || fault.rest().starts_with(b"\xC2\xA0") || fault.is(b"\t")
}

fn sign(fault: &Fault) -> bool {
    let signs: [&[u8]; 4] = [b"-", b"+", b"\xE2\x88\x92", b"\xE2\x80\x93"];
    fault.number_due() && signs.iter().any(|sign| fault.rest().starts_with(sign))
}

fn quote(fault: &Fault) -> bool {
    fault.is(b"\"'") || [b"\xE2\x80\x9C", b"\xE2\x80\x9D"].iter().any(|quote| fault.rest().starts_with(*quote))
}

fn only_line_ends_follow(fault: &Fault) -> bool {
    fault.is(b"\r\n") && fault.rest().iter().all(|byte| b"\r\n".contains(byte))
}

fn exponent(fault: &Fault) -> bool {
    let within = matches!(fault.place.state, State::Within { .. });
    let follows = fault.rest().get(1).is_some_and(|&byte| byte.is_ascii_digit() || b"+-".contains(&byte));
    within && fault.is(b"eE") && follows
}

/// The most telling first: a text as a whole, how it is coded, its header, its line ends, and then cells.
static CAUSES: &[Cause] = &[
    Cause {
        name: "missing",
        applies: |f| *f.text == Text::Missing,
        likely: "the file is not there, or has another name (capital letters count)",
        cure: "write it, or correct its name or the name that was typed",
        tidy: false,
    },
    Cause {
        name: "unreadable",
        applies: |f| matches!(f.text, Text::Unreadable(_)),
        likely: "a folder has this name, or a file that you may not read",
        cure: "put a file that you may read into its place",
        tidy: false,
    },
    Cause {
        name: "too long",
        applies: |f| f.bytes().len() > LONGEST,
        likely: "the file has more than 60,000 bytes, and no program takes a longer one",
        cure: "look whether it is the right file; a part of a ticks text is another run, on a fresh machine",
        tidy: false,
    },
    Cause {
        name: "empty",
        applies: |f| f.bytes().is_empty(),
        likely: "it was made and never filled, or what writes it failed",
        cure: "write the header and the rows into it",
        tidy: false,
    },
    Cause {
        name: "spreadsheet file",
        applies: spreadsheet,
        likely: "this is a spreadsheet's own file under the name of a text",
        cure: "open it in the spreadsheet and save it as CSV, with commas and without quotes",
        tidy: false,
    },
    Cause {
        name: "BOM",
        applies: |f| f.place.offset == 0 && f.bytes().starts_with(b"\xEF\xBB\xBF"),
        likely: "a byte order mark (EF BB BF) stands first, as \"CSV UTF-8\" of a spreadsheet has it",
        cure: "save it without the mark (plain CSV; \"UTF-8\" and not \"UTF-8 with BOM\" in an editor)",
        tidy: true,
    },
    Cause {
        name: "UTF-16",
        applies: utf16_marked_ascii,
        likely: "two bytes stand for each letter, as in \"Unicode text\" of a spreadsheet",
        cure: "save it as plain CSV, or as UTF-8 without a byte order mark",
        tidy: true,
    },
    Cause {
        name: "UTF-16 with other letters",
        applies: utf16_marked,
        likely: "two bytes stand for each letter, and not all are ASCII",
        cure: "save it as UTF-8 without a byte order mark, and ask again",
        tidy: false,
    },
    Cause {
        name: "UTF-16 without its mark",
        applies: utf16_unmarked,
        likely: "two bytes stand for each letter, and no mark before them",
        cure: "save it as UTF-8 without a byte order mark",
        tidy: false,
    },
    Cause {
        name: "end-of-file mark",
        applies: |f| f.is(b"\x1A"),
        likely: "an end-of-file mark (0x1A) of an old program stands behind the text",
        cure: "delete this byte",
        tidy: false,
    },
    Cause {
        name: "binary",
        applies: binary,
        likely: "this is no text, or a damaged one: such a byte is in no text",
        cure: "write the file anew",
        tidy: false,
    },
    Cause {
        name: "another text's header",
        applies: begins_with_another_header,
        likely: "this is another one of the unit's texts: the files changed places",
        cure: "give each file its own name: the header says which it is",
        tidy: false,
    },
    Cause {
        name: "quotes",
        applies: quote,
        likely: "the cells are in quotes, as some spreadsheets write them",
        cure: "save without quotes (in the spreadsheet: no quotes around text cells), or take them out",
        tidy: false,
    },
    Cause {
        name: "semicolons",
        applies: |f| f.is(b";") && !f.line_has(b','),
        likely: "they stand between the cells, as where a spreadsheet has decimal commas",
        cure: "save with commas between the cells",
        tidy: true,
    },
    Cause {
        name: "semicolon beside commas",
        applies: |f| f.is(b";"),
        likely: "a semicolon stands in a line that has commas too",
        cure: "look at this line: one comma belongs between two cells, and nothing else",
        tidy: false,
    },
    Cause {
        name: "tabs",
        applies: |f| f.is(b"\t") && !f.line_has(b','),
        likely: "they stand between the cells, as in a copied table",
        cure: "save with commas between the cells",
        tidy: true,
    },
    Cause {
        name: "blanks",
        applies: blank,
        likely: "a blank or a tab stands beside a cell or within a number",
        cure: "take the blanks out: no blank stands anywhere in a good text",
        tidy: false,
    },
    Cause {
        name: "blank first line",
        applies: |f| f.place.offset == 0 && f.is(b"\r\n"),
        likely: "a blank line stands before the header",
        cure: "delete it: the header is the first line",
        tidy: false,
    },
    Cause {
        name: "no header",
        applies: |f| f.place.offset == 0 && f.found().is_some_and(|byte| byte.is_ascii_digit()),
        likely: "the first line has numbers",
        cure: "write the header as the first line",
        tidy: false,
    },
    Cause {
        name: "header in other case",
        applies: |f| f.in_header() && f.line() != f.form.header.as_bytes() && same_but_for_case(f),
        likely: "capital and small letters are not as they have to be",
        cure: "write the header just as it is shown above",
        tidy: false,
    },
    Cause {
        name: "header in other order",
        applies: |f| f.in_header() && !same_but_for_case(f) && names(f.line()) == names(f.form.header.as_bytes()),
        likely: "the columns stand in another order",
        cure: "put the columns, header and numbers, into the order of the header shown above",
        tidy: false,
    },
    Cause {
        name: "header with too many columns",
        applies: |f| f.whole_header() && f.is(b","),
        likely: "something stands to the right of the table, or a comma",
        cure: "delete what is to the right of the last column, in every line",
        tidy: false,
    },
    Cause {
        name: "header without CR LF",
        applies: |f| f.whole_header() && f.found().is_none(),
        likely: "the last CR LF is missing: the file ends with the header's last letter",
        cure: "end the line with CR LF, and write the rows below it",
        tidy: true,
    },
    Cause {
        name: "LF line ends",
        applies: |f| f.is(b"\n") && f.may(b'\r'),
        likely: "the line ends in LF alone, as on Linux and macOS",
        cure: "save with CR LF line ends (in an editor: \"CRLF\", \"DOS\" or \"Windows\" line ends)",
        tidy: true,
    },
    Cause {
        name: "header with too few columns",
        applies: |f| f.in_header() && f.may(b',') && (f.is(b"\r\n") || f.found().is_none()),
        likely: "the header ends too early",
        cure: "write all columns, header and numbers",
        tidy: false,
    },
    Cause {
        name: "header cut short",
        applies: |f| f.in_header() && f.found().is_none(),
        likely: "the file ends within the header: it was cut short",
        cure: "write the file anew",
        tidy: false,
    },
    Cause {
        name: "header with other names",
        applies: |f| f.in_header() && !f.whole_header(),
        likely: "the columns have other names, or the first line is no header",
        cure: "write the header just as it is shown above",
        tidy: false,
    },
    Cause {
        name: "something behind the header",
        applies: |f| f.in_header(),
        likely: "something stands behind the header's last letter",
        cure: "delete it: the header is followed by CR LF",
        tidy: false,
    },
    Cause {
        name: "two CR",
        applies: |f| f.place.state == State::AfterCr && f.is(b"\r"),
        likely: "the line ends in CR CR LF: its end was turned into CR LF twice",
        cure: "save with CR LF line ends (in an editor: \"CRLF\", \"DOS\" or \"Windows\" line ends)",
        tidy: true,
    },
    Cause {
        name: "CR line ends",
        applies: |f| f.place.state == State::AfterCr,
        likely: "the line ends in CR alone, as a spreadsheet writes \"CSV (Macintosh)\"",
        cure: "save with CR LF line ends (in an editor: \"CRLF\", \"DOS\" or \"Windows\" line ends)",
        tidy: true,
    },
    Cause {
        name: "no platform row",
        applies: |f| f.form.rows == Rows::One && f.place.row() == 1 && starts_empty(f),
        likely: "the header stands alone: the row with the board's numbers is missing",
        cure: "write one row under the header: the board's cores and its partitions",
        tidy: false,
    },
    Cause {
        name: "blank last line",
        applies: |f| f.place.state == State::LineStart && only_line_ends_follow(f),
        likely: "a blank line stands behind the last row",
        cure: "delete what follows the last row's CR LF",
        tidy: true,
    },
    Cause {
        name: "blank line",
        applies: |f| f.place.state == State::LineStart && f.is(b"\r\n"),
        likely: "a blank line stands between the rows",
        cure: "delete it",
        tidy: false,
    },
    Cause {
        name: "row of empty cells",
        applies: |f| f.place.state == State::LineStart && f.line().iter().all(|&b| b == b',') && f.is(b","),
        likely: "in the spreadsheet this row was filled once and then cleared",
        cure: "delete the row (in the spreadsheet: delete the row itself, not only what is in it)",
        tidy: false,
    },
    Cause {
        name: "second platform row",
        applies: |f| f.after_the_one_row() && f.found().is_some_and(|byte| byte.is_ascii_digit()),
        likely: "there is a second row: a board has one",
        cure: "leave one row under the header",
        tidy: false,
    },
    Cause {
        name: "something behind the platform row",
        applies: |f| f.after_the_one_row(),
        likely: "something stands behind the one row",
        cure: "delete what follows the row's CR LF",
        tidy: false,
    },
    Cause {
        name: "no last CR LF",
        applies: |f| f.found().is_none() && f.in_last_column(),
        likely: "the last CR LF is missing: the file ends with the last row's last digit",
        cure: "end the last line with CR LF too",
        tidy: true,
    },
    Cause {
        name: "cut short",
        applies: |f| f.found().is_none(),
        likely: "the file ends within a row: it was cut short, or the row has too few columns",
        cure: "complete the row, and end it with CR LF",
        tidy: false,
    },
    Cause {
        name: "empty cell",
        applies: |f| f.number_due() && f.is(b",\r\n"),
        likely: "a cell is empty",
        cure: "write its number; 0 is one too",
        tidy: false,
    },
    Cause {
        name: "too few columns",
        applies: |f| f.is(b"\r\n"),
        likely: "the row ends too early",
        cure: "write all the columns that the header has",
        tidy: false,
    },
    Cause {
        name: "too many columns",
        applies: |f| f.in_last_column() && f.is(b","),
        likely: "something stands to the right of the table, or a comma in a number",
        cure: "leave as many numbers as the header has names, whole ones and without marks for thousands",
        tidy: false,
    },
    Cause {
        name: "sign",
        applies: sign,
        likely: "a number has one",
        cure: "write it without a sign; no number of a unit is negative",
        tidy: false,
    },
    Cause {
        name: "decimal point",
        applies: |f| f.is(b"."),
        likely: "a number has a point: a part of a tick, or a mark for thousands",
        cure: "write whole numbers without marks; choose a shorter tick if parts of it matter",
        tidy: false,
    },
    Cause {
        name: "exponent",
        applies: exponent,
        likely: "a spreadsheet wrote a large number with an exponent (1E+05)",
        cure: "give the cell the format \"number\" without decimals, and save again",
        tidy: false,
    },
    Cause {
        name: "leading zero",
        applies: |f| matches!(f.place.state, State::Within { value: 0, .. }) && f.is(b"0123456789"),
        likely: "a number begins with 0 and goes on",
        cure: "write it without: 7 and not 07",
        tidy: false,
    },
    Cause {
        name: "too large",
        applies: |f| f.is(b"0123456789"),
        likely: "a number is above 4,294,967,295, the largest that a text may have",
        cure: "correct the number",
        tidy: false,
    },
    Cause {
        name: "other byte",
        applies: |_| true,
        likely: "a name, a unit of measure or a remark stands where only a number belongs",
        cure: "leave only numbers in the rows",
        tidy: false,
    },
];

fn same_but_for_case(fault: &Fault) -> bool {
    fault.line().eq_ignore_ascii_case(fault.form.header.as_bytes())
}

/// Nothing but line ends from the beginning of a line on.
fn starts_empty(fault: &Fault) -> bool {
    fault.place.state == State::LineStart && (fault.found().is_none() || only_line_ends_follow(fault))
}

#[cfg(test)]
mod tests {
    use super::*;
    use crate::place::place;
    use crate::place::tests::{Draw, FORMS};
    use crate::tidy::tidied;

    /// The cause of a text whose place is found by trying: the first offset that is one.
    fn cause_of(form: &'static Form, bytes: &[u8]) -> &'static str {
        let text = Text::Bytes(bytes.to_vec());
        let place = match bytes.is_empty() || bytes.len() > LONGEST {
            true => Place::FIRST,
            false => (0..=bytes.len()).find_map(|at| place(form, bytes, at)).expect("not a good text"),
        };
        cause(&Fault { form, text: &text, place }).name
    }

    #[test]
    fn a_text_as_a_whole() {
        let of = |text: Text| cause(&Fault { form: &TASKS, text: &text, place: Place::FIRST }).name;
        assert_eq!(of(Text::Missing), "missing");
        assert_eq!(of(Text::Unreadable("a folder".into())), "unreadable");
        assert_eq!(of(Text::Bytes(vec![])), "empty");
        let long = [b"D,T,C,A\r\n".to_vec(), b"1,1,1,0\r\n".repeat(7000)].concat();
        assert_eq!(cause_of(&TASKS, &long), "too long");
    }

    #[test]
    fn how_it_is_coded() {
        let little: Vec<u8> = "\u{FEFF}D,T,C,A\r\n".encode_utf16().flat_map(u16::to_le_bytes).collect();
        let big: Vec<u8> = "\u{FEFF}D,T,C,A\r\n".encode_utf16().flat_map(u16::to_be_bytes).collect();
        let other: Vec<u8> = "\u{FEFF}D,T,C,Ä\r\n".encode_utf16().flat_map(u16::to_le_bytes).collect();
        for (bytes, wanted) in [
            (&b"PK\x03\x04\x14\x00"[..], "spreadsheet file"),
            (b"\xD0\xCF\x11\xE0\xA1", "spreadsheet file"),
            (b"\xEF\xBB\xBFD,T,C,A\r\n", "BOM"),
            (&little, "UTF-16"),
            (&big, "UTF-16"),
            (&other, "UTF-16 with other letters"),
            (&little[2..], "UTF-16 without its mark"),
            (&big[2..], "UTF-16 without its mark"),
            (b"D,T,C,A\r\n1,1,1,0\r\n\x1A", "end-of-file mark"),
            (b"\x7FELF", "binary"),
            (b"D,T,C,A\r\n1,1,1\x00,0\r\n", "binary"),
        ] {
            assert_eq!(cause_of(&TASKS, bytes), wanted, "{bytes:?}");
        }
    }

    #[test]
    fn headers() {
        for (text, wanted) in [
            ("cores,partitions\r\n2,4\r\n", "another text's header"),
            ("released,finished\r\n", "another text's header"),
            ("\"D\",\"T\",\"C\",\"A\"\r\n", "quotes"),
            ("D;T;C;A\r\n", "semicolons"),
            ("D;T,C,A\r\n", "semicolon beside commas"),
            ("D\tT\tC\tA\r\n", "tabs"),
            ("D, T, C, A\r\n", "blanks"),
            ("D,T,C,A \r\n", "blanks"),
            ("\r\nD,T,C,A\r\n", "blank first line"),
            ("40,50,2,1\r\n", "no header"),
            ("d,t,c,a\r\n", "header in other case"),
            ("D,t,C,A\n", "header in other case"),
            ("T,D,C,A\r\n", "header in other order"),
            ("D,T,C,A,N\r\n", "header with too many columns"),
            ("D,T,C,A", "header without CR LF"),
            ("D,T,C,A\n1,1,1,0\n", "LF line ends"),
            ("D,T,C\r\n", "header with too few columns"),
            ("D,T,C", "header with too few columns"),
            ("D,T,", "header cut short"),
            ("deadline,T,C,A\r\n", "header with other names"),
            ("D,T,C,Ax\r\n", "something behind the header"),
            ("D,T,C,A\r\r\n1,1,1,0\r\r\n", "two CR"),
            ("D,T,C,A\r1,1,1,0\r", "CR line ends"),
        ] {
            assert_eq!(cause_of(&TASKS, text.as_bytes()), wanted, "{text:?}");
        }
    }

    #[test]
    fn rows_of_tasks() {
        for (rows, wanted) in [
            ("1,1,1,0\n", "LF line ends"),
            ("1,1,1,0\r2", "CR line ends"),
            ("1,1,1,0\r", "CR line ends"),
            ("1,1,1,0\r\n\r\n", "blank last line"),
            ("1,1,1,0\r\n\n\n", "blank last line"),
            ("1,1,1,0\r\n\r\n1,1,1,0\r\n", "blank line"),
            (",,,\r\n", "row of empty cells"),
            (",1,1,0\r\n", "empty cell"),
            ("1,,1,0\r\n", "empty cell"),
            ("1,1,1,\r\n", "empty cell"),
            ("1,1,1,0", "no last CR LF"),
            ("1,1,1", "cut short"),
            ("1,1,", "cut short"),
            ("1,1,1\r\n", "too few columns"),
            ("1,1,1\n", "too few columns"),
            ("1,1,1,0,5\r\n", "too many columns"),
            ("1,1,1,0,\r\n", "too many columns"),
            ("1,1,1,0 \r\n", "blanks"),
            ("1 ,1,1,0\r\n", "blanks"),
            ("1,1,1,0\t\r\n", "blanks"),
            ("1\u{A0}000,1,1,0\r\n", "blanks"),
            ("1;1;1;0\r\n", "semicolons"),
            ("1\t1\t1\t0\r\n", "tabs"),
            ("\"1\",1,1,0\r\n", "quotes"),
        ] {
            assert_eq!(cause_of(&TASKS, format!("D,T,C,A\r\n{rows}").as_bytes()), wanted, "{rows:?}");
        }
    }

    #[test]
    fn numbers_of_tasks() {
        for (rows, wanted) in [
            ("-1,1,1,0\r\n", "sign"),
            ("1,+1,1,0\r\n", "sign"),
            ("1,1,\u{2212}1,0\r\n", "sign"),
            ("1.5,1,1,0\r\n", "decimal point"),
            ("1E+05,1,1,0\r\n", "exponent"),
            ("01,1,1,0\r\n", "leading zero"),
            ("1,00,1,0\r\n", "leading zero"),
            ("4294967296,1,1,0\r\n", "too large"),
            ("1,42949672950,1,0\r\n", "too large"),
            ("12ms,1,1,0\r\n", "other byte"),
            ("pump,1,1,0\r\n", "other byte"),
        ] {
            assert_eq!(cause_of(&TASKS, format!("D,T,C,A\r\n{rows}").as_bytes()), wanted, "{rows:?}");
        }
    }

    #[test]
    fn the_one_row_of_a_platform() {
        for (rows, wanted) in [
            ("", "no platform row"),
            ("\r\n", "no platform row"),
            ("2,4\r\n3,4\r\n", "second platform row"),
            ("2,4\r\n\r\n", "blank last line"),
            ("2,4\r\nend", "something behind the platform row"),
            ("2,4", "no last CR LF"),
        ] {
            assert_eq!(cause_of(&PLATFORM, format!("cores,partitions\r\n{rows}").as_bytes()), wanted, "{rows:?}");
        }
    }

    fn first_place(form: &'static Form, bytes: &[u8]) -> Option<Place> {
        (0..=bytes.len()).find_map(|at| place(form, bytes, at)).filter(|_| !bytes.is_empty())
    }

    #[test]
    fn what_tidy_is_said_to_mend_it_mends() {
        let mut draw = Draw(6);
        let mut said = std::collections::HashSet::new();
        for round in 0..20_000 {
            let form = FORMS[round % 3];
            let bytes = draw.damaged(form);
            let Some(place) = first_place(form, &bytes) else { continue };
            let fault = Fault { form, text: &Text::Bytes(bytes.clone()), place };
            let cause_before = cause(&fault);
            if !cause_before.is_mended_by_tidy(&fault) {
                continue;
            }
            said.insert(cause_before.name);
            let copy = Text::Bytes(tidied(&bytes).0);
            let Some(place) = first_place(form, copy.given()) else { continue };
            let cause_after = cause(&Fault { form, text: &copy, place });
            let mended = cause_after.name != cause_before.name || place.line > fault.place.line;
            assert!(mended, "{}: {:?}", cause_before.name, String::from_utf8_lossy(&bytes));
        }
        let drawn =
            ["LF line ends", "CR line ends", "two CR", "semicolons", "tabs", "blank last line", "no last CR LF"];
        assert!(drawn.iter().all(|name| said.contains(name)), "{said:?}");
    }

    #[test]
    fn marks_that_tidy_mends() {
        let good = b"D,T,C,A\r\n1,1,1,0\r\n";
        let utf16 = |pair: fn(u16) -> [u8; 2]| {
            let text = String::from_utf8_lossy(good);
            std::iter::once(0xFEFF).chain(text.encode_utf16()).flat_map(pair).collect::<Vec<u8>>()
        };
        let marked = [b"\xEF\xBB\xBF", &good[..]].concat();
        for bytes in [marked, utf16(u16::to_le_bytes), utf16(u16::to_be_bytes)] {
            let text = Text::Bytes(bytes);
            let fault = Fault { form: &TASKS, text: &text, place: Place::FIRST };
            assert!(cause(&fault).is_mended_by_tidy(&fault));
            assert_eq!(tidied(text.given()).0, good);
        }
        let with_nul = Text::Bytes(b"D;T;C;A\0".to_vec());
        let fault = Fault { form: &TASKS, text: &with_nul, place: Place { offset: 1, column: 2, ..Place::FIRST } };
        assert!(cause(&fault).tidy && !cause(&fault).is_mended_by_tidy(&fault));
    }

    #[test]
    fn every_line_fits_a_page() {
        for cause in CAUSES {
            let likely = format!("  likely cause ({}): {}", cause.name, cause.likely);
            for line in [likely, format!("  cure: {}", cause.cure)] {
                assert!(line.chars().count() <= 110, "{line}");
            }
        }
    }

    #[test]
    fn names_are_their_own() {
        let names: std::collections::HashSet<&str> = CAUSES.iter().map(|cause| cause.name).collect();
        assert_eq!(names.len(), CAUSES.len());
    }
}
