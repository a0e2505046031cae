//! Where in a text a refused place is, and what may stand there. All that stands before it is the beginning of a good
//! text: that is what the proved place says.

/// How many rows a text has under its header.
#[derive(Debug, Clone, Copy, PartialEq, Eq)]
pub enum Rows {
    One,
    Any,
}

/// A text of document 01.
#[derive(Debug)]
pub struct Form {
    pub file: &'static str,
    pub header: &'static str,
    pub columns: usize,
    pub rows: Rows,
}

pub static PLATFORM: Form = Form { file: "platform.csv", header: "cores,partitions", columns: 2, rows: Rows::One };
pub static TASKS: Form = Form { file: "tasks.csv", header: "D,T,C,A", columns: 4, rows: Rows::Any };
pub static REPORTS: Form = Form { file: "reports.csv", header: "released,finished", columns: 2, rows: Rows::Any };

/// What the line has come to in which a beginning of a good text stops.
#[derive(Debug, Clone, Copy, PartialEq, Eq)]
pub enum State {
    /// So many bytes of the header stand; with all of them its CR is due.
    Header(usize),
    /// The line's CR stands, its LF is due.
    AfterCr,
    /// Nothing of the line stands, and it is not the header.
    LineStart,
    /// The comma before this column stands; columns count from 0.
    Before { column: usize },
    /// Digits of this column stand, and come to this value.
    Within { column: usize, value: u32 },
}

/// A beginning of a good text, as far as it bears on what may follow. The header is row 0.
#[derive(Debug, Clone, Copy, PartialEq, Eq)]
struct Reading {
    row: usize,
    state: State,
}

impl Reading {
    const START: Reading = Reading { row: 0, state: State::Header(0) };

    /// The reading one byte on, if some good text goes on so.
    fn step(self, form: &Form, byte: u8) -> Option<Reading> {
        let last = form.columns - 1;
        let state = match self.state {
            State::Header(done) => match form.header.as_bytes().get(done) {
                Some(&due) if byte == due => State::Header(done + 1),
                None if byte == b'\r' => State::AfterCr,
                _ => return None,
            },
            State::AfterCr if byte == b'\n' => return Some(Reading { row: self.row + 1, state: State::LineStart }),
            State::AfterCr => return None,
            State::LineStart if form.rows == Rows::One && self.row > 1 => return None,
            State::LineStart => State::Within { column: 0, value: digit(byte)? },
            State::Before { column } => State::Within { column, value: digit(byte)? },
            State::Within { column, .. } if byte == b',' && column < last => State::Before { column: column + 1 },
            State::Within { column, .. } if byte == b'\r' && column == last => State::AfterCr,
            State::Within { value: 0, .. } => return None,
            State::Within { column, value } => {
                State::Within { column, value: value.checked_mul(10)?.checked_add(digit(byte)?)? }
            }
        };
        Some(Reading { state, ..self })
    }

    fn may_end(self, form: &Form) -> bool {
        self.state == State::LineStart && (form.rows == Rows::Any || self.row > 1)
    }
}

fn digit(byte: u8) -> Option<u32> {
    char::from(byte).to_digit(10)
}

/// The place of refusal 15 in a text.
#[derive(Debug, Clone, Copy, PartialEq, Eq)]
pub struct Place {
    /// Counted from 0, as the proved listing has it.
    pub offset: usize,
    /// Counted from 1: the header is line 1, and row 1 is line 2.
    pub line: usize,
    /// Counted from 1.
    pub column: usize,
    pub state: State,
}

impl Place {
    /// The first byte of a text: also the place of a text that is refused as a whole.
    pub const FIRST: Place = Place { offset: 0, line: 1, column: 1, state: State::Header(0) };

    /// The row of the line; 0 is the header.
    pub fn row(&self) -> usize {
        self.line - 1
    }

    /// The offset of the line's first byte.
    pub fn line_start(&self) -> usize {
        self.offset + 1 - self.column
    }

    /// The bytes that may stand here.
    pub fn may_stand(&self, form: &Form) -> Vec<u8> {
        (0..=u8::MAX).filter(|&byte| self.reading().step(form, byte).is_some()).collect()
    }

    /// Whether the text may end here.
    pub fn may_end(&self, form: &Form) -> bool {
        self.reading().may_end(form)
    }

    fn reading(&self) -> Reading {
        Reading { row: self.row(), state: self.state }
    }
}

/// The place with this offset, if the text is as a refusal there says: good before it and not at it.
pub fn place(form: &Form, text: &[u8], offset: usize) -> Option<Place> {
    let before = text.get(..offset)?;
    let reading = before.iter().try_fold(Reading::START, |reading, &byte| reading.step(form, byte))?;
    let goes_on = match text.get(offset) {
        Some(&byte) => reading.step(form, byte).is_some(),
        None => reading.may_end(form),
    };
    let line_start = before.iter().rposition(|&byte| byte == b'\n').map_or(0, |at| at + 1);
    let place = Place { offset, line: reading.row + 1, column: offset - line_start + 1, state: reading.state };
    (!goes_on).then_some(place)
}

/// The rows of a good text, each with the offset of its line; `None` where the text is not good.
pub fn rows(form: &Form, text: &[u8]) -> Option<Vec<(usize, Vec<u32>)>> {
    let mut rows: Vec<(usize, Vec<u32>)> = Vec::new();
    let mut reading = Reading::START;
    for (offset, &byte) in text.iter().enumerate() {
        let next = reading.step(form, byte)?;
        match (reading.state, next.state) {
            (State::LineStart, State::Within { value, .. }) => rows.push((offset, vec![value])),
            (State::Before { .. }, State::Within { value, .. }) => rows.last_mut()?.1.push(value),
            (State::Within { .. }, State::Within { value, .. }) => *rows.last_mut()?.1.last_mut()? = value,
            _ => {}
        }
        reading = next;
    }
    reading.may_end(form).then_some(rows)
}

#[cfg(test)]
pub mod tests {
    use super::*;

    pub static FORMS: [&Form; 3] = [&PLATFORM, &TASKS, &REPORTS];

    const SLIPS: &[u8] = b"0123456789,;\r\n \t\"'-+.DTCAcores\xEF\x00\xFF";

    /// A small generator (xorshift64*), so that each run draws the same texts.
    pub struct Draw(pub u64);

    impl Draw {
        pub fn below(&mut self, bound: usize) -> usize {
            self.0 ^= self.0 >> 12;
            self.0 ^= self.0 << 25;
            self.0 ^= self.0 >> 27;
            (self.0.wrapping_mul(0x2545_F491_4F6C_DD1D) >> 33) as usize % bound
        }

        fn number(&mut self) -> String {
            const EDGES: [u32; 10] = [0, 1, 9, 10, 429496728, 429496729, 429496730, 4294967289, 4294967294, u32::MAX];
            match self.below(3) {
                0 => EDGES[self.below(EDGES.len())].to_string(),
                1 => self.below(100).to_string(),
                _ => (self.below(1 << 16) * self.below(1 << 16)).min(u32::MAX as usize).to_string(),
            }
        }

        pub fn good(&mut self, form: &Form) -> Vec<u8> {
            let count = if form.rows == Rows::One { 1 } else { self.below(4) };
            let mut text = format!("{}\r\n", form.header);
            for _ in 0..count {
                let row: Vec<String> = (0..form.columns).map(|_| self.number()).collect();
                text += &format!("{}\r\n", row.join(","));
            }
            text.into_bytes()
        }

        /// A text with one to three slips: a byte changed, put in, or taken away, a number grown, or the text cut.
        pub fn damaged(&mut self, form: &Form) -> Vec<u8> {
            let mut text = self.good(form);
            for _ in 0..=self.below(3) {
                let at = self.below(text.len() + 1);
                let byte = SLIPS[self.below(SLIPS.len())];
                match self.below(5) {
                    0 if at < text.len() => text[at] = byte,
                    1 if at < text.len() => drop(text.remove(at)),
                    2 => text.truncate(at),
                    3 => drop(text.splice(at..at, b"00".iter().copied())),
                    _ => text.insert(at, byte),
                }
            }
            text
        }
    }

    /// Document 01's words for a good text, by cutting it up: nothing of `step` is used.
    fn is_good(form: &Form, text: &[u8]) -> bool {
        let Some(text) = std::str::from_utf8(text).ok().and_then(|text| text.strip_suffix("\r\n")) else {
            return false;
        };
        let lines: Vec<&str> = text.split("\r\n").collect();
        let number = |cell: &str| cell.parse::<u32>().is_ok_and(|value| value.to_string() == cell);
        let row = |line: &&str| line.split(',').count() == form.columns && line.split(',').all(number);
        lines[0] == form.header && lines[1..].iter().all(row) && (form.rows == Rows::Any || lines.len() == 2)
    }

    /// Whether some good text begins so. Each such beginning is made good by an end of this one good text.
    fn begins_good(form: &Form, text: &[u8]) -> bool {
        let zeros = vec!["0"; form.columns].join(",");
        let whole = format!("{}\r\n{zeros}\r\n", form.header);
        (0..=whole.len()).any(|from| is_good(form, &[text, &whole.as_bytes()[from..]].concat()))
    }

    /// The longest beginning that some good text has too: document 01's offset.
    fn offset_by_trying(form: &Form, text: &[u8]) -> usize {
        (0..=text.len()).take_while(|&to| begins_good(form, &text[..to])).count() - 1
    }

    #[test]
    fn headers_have_their_columns() {
        for form in FORMS {
            assert_eq!(form.header.split(',').count(), form.columns);
        }
    }

    #[test]
    fn what_may_stand_is_what_some_good_text_has() {
        let mut draw = Draw(1);
        let mut states = std::collections::HashSet::new();
        for round in 0..300 {
            let form = FORMS[round % 3];
            let text = draw.damaged(form);
            if is_good(form, &text) {
                continue;
            }
            let offset = offset_by_trying(form, &text);
            let place = place(form, &text, offset).unwrap_or_else(|| panic!("{:?}", String::from_utf8_lossy(&text)));
            let before = &text[..offset];
            let wanted: Vec<u8> =
                (0..=u8::MAX).filter(|&byte| begins_good(form, &[before, &[byte]].concat())).collect();
            assert_eq!(place.may_stand(form), wanted, "{:?}", String::from_utf8_lossy(&text));
            assert_eq!(place.may_end(form), is_good(form, before));
            states.insert(std::mem::discriminant(&place.state));
        }
        assert_eq!(states.len(), 5, "every kind of state came up");
    }

    #[test]
    fn no_other_offset_is_a_place() {
        let mut draw = Draw(2);
        for round in 0..300 {
            let form = FORMS[round % 3];
            let text = draw.damaged(form);
            let wanted = (!is_good(form, &text)).then(|| offset_by_trying(form, &text));
            for offset in 0..text.len() + 2 {
                assert_eq!(place(form, &text, offset).is_some(), wanted == Some(offset));
            }
        }
    }

    #[test]
    fn lines_and_columns_are_those_of_the_bytes() {
        let mut draw = Draw(3);
        for round in 0..900 {
            let form = FORMS[round % 3];
            let text = draw.damaged(form);
            let offset = offset_by_trying(form, &text);
            let Some(place) = place(form, &text, offset) else {
                continue;
            };
            let lines: Vec<&[u8]> = text[..offset].split(|&byte| byte == b'\n').collect();
            assert_eq!((place.line, place.column), (lines.len(), lines[lines.len() - 1].len() + 1));
            assert_eq!(place.line_start() + place.column - 1, offset);
            assert_eq!(place.row() + 1, place.line);
        }
    }

    #[test]
    fn rows_of_good_texts_only() {
        let mut draw = Draw(4);
        for round in 0..3000 {
            let form = FORMS[round % 3];
            let text = if round % 2 == 0 { draw.good(form) } else { draw.damaged(form) };
            let rows = rows(form, &text);
            assert_eq!(rows.is_some(), is_good(form, &text));
            let written = rows.map(|rows| {
                let line = |(_, row): &(usize, Vec<u32>)| {
                    row.iter().map(u32::to_string).collect::<Vec<_>>().join(",") + "\r\n"
                };
                form.header.to_string() + "\r\n" + &rows.iter().map(line).collect::<String>()
            });
            if let Some(written) = written {
                assert_eq!(written.as_bytes(), text);
            }
        }
    }
}
