//! The form of the files of cases and of answers. A case is a byte that names its kind and then the kind's fields; an
//! answer is its kind's fields alone. Numbers are little-endian. A text is its length, 4 bytes, and its bytes. There is
//! nothing between records.
//!
//! The fields of a kind are stated once, below; what is written is checked against them and what is read is read by
//! them.
//!
//! ```text
//! A  both admission answers           C  the quick verdict on two texts
//! S  set-up of the machine kept       U  set-up of the machine kept from two texts
//! T  a tick of the machine kept       M  what the program "admit" writes of its texts
//! X  a tick of a machine given        N  what the program "ticks" writes of its texts
//! R  the rehearsal of a table         B  what the program "rehearse" writes of its texts
//!                                     V  platform and tasks texts are written, each by itself
//!                                     W  both are written, or neither
//! ```
//!
//! A buffer is `BEFORE` in every byte until it is written to. Of M, N and B the answer shows the room given and `PAST`
//! bytes behind it.

use std::io::{self, Read};

/// The bytes of a buffer before it is written to.
pub const BEFORE: u8 = 0xa5;

/// How many bytes behind the room are shown.
pub const PAST: usize = 16;

/// The most room that a case of M, N or B gives.
pub const MOST: usize = 524_288 - PAST;

#[derive(Clone, Copy, Debug, PartialEq, Eq)]
pub enum Form {
    U32,
    U64,
    I64,
    Text,
}
use Form::{Text, I64, U32, U64};

#[derive(Clone, Debug, PartialEq, Eq)]
pub enum Value {
    Number(i128),
    Bytes(Vec<u8>),
}

pub struct Field {
    pub name: String,
    pub form: Form,
}

fn field(name: impl Into<String>, form: Form) -> Field {
    Field { name: name.into(), form }
}

/// n, M, P and 32 rows of D, T, C, A.
fn table_fields() -> Vec<Field> {
    let mut all = vec![field("n", U64), field("M", U32), field("P", U32)];
    for row in 1..=32 {
        for column in ["D", "T", "C", "A"] {
            all.push(field(format!("{column}{row}"), U32));
        }
    }
    all
}

/// Stage (0 idle, 1 waiting, 2 running), age, ticks run and partitions held of 32 jobs.
fn job_fields() -> Vec<Field> {
    let mut all = vec![];
    for task in 1..=32 {
        for (name, form) in [("stage", U32), ("age", U32), ("ran", U32), ("held", U64)] {
            all.push(field(format!("{name}{task}"), form));
        }
    }
    all
}

fn report_fields() -> Vec<Field> {
    vec![field("released", U32), field("finished", U32)]
}

/// What a writer answers, and what its buffer then is.
fn written_fields(of: &str) -> Vec<Field> {
    let name = |what: &str| format!("{of}{what}");
    vec![field(name("number"), U32), field(name("row"), U64), field(name("length"), U64), field(name("buffer"), Text)]
}

/// The fields of a case.
pub fn case_fields(kind: u8) -> Option<Vec<Field>> {
    let mut all = vec![];
    match kind {
        b'A' | b'S' | b'R' => all.extend(table_fields()),
        b'T' => all.extend(report_fields()),
        b'X' => {
            all.extend(table_fields());
            all.extend(job_fields());
            all.extend(report_fields());
        }
        b'C' | b'U' => all.extend([field("platform", Text), field("tasks", Text)]),
        b'M' | b'N' | b'B' => {
            for name in ["platform", "tasks"] {
                all.extend([field(format!("{name} there"), U32), field(name, Text)]);
            }
            if kind == b'N' {
                all.push(field("ticks", Text));
            }
            all.push(field("room", U32));
        }
        b'V' | b'W' => {
            all.extend(table_fields());
            all.extend([field("platform buffer", U32), field("tasks buffer", U32)]);
        }
        _ => return None,
    }
    Some(all)
}

/// The fields of the answer to a case.
pub fn answer_fields(kind: u8) -> Option<Vec<Field>> {
    let mut all = vec![];
    match kind {
        b'A' => {
            for name in ["number", "row"] {
                all.push(field(format!("full {name}"), if name == "row" { U64 } else { U32 }));
            }
            all.extend([field("full admitted", U32), field("full first", U64)]);
            all.extend((1..=32).map(|k| field(format!("margin{k}"), I64)));
            all.extend([field("quick number", U32), field("quick row", U64)]);
            all.extend([field("quick admitted", U32), field("quick first", U64)]);
        }
        b'S' => all.extend([field("number", U32), field("row", U64), field("digest", U32)]),
        b'T' | b'X' => {
            all.extend([field("number", U32), field("task", U64), field("finished", U32)]);
            all.extend([field("late", U32), field("started", U32), field("digest", U32)]);
        }
        b'U' => {
            all.extend([field("number", U32), field("row or offset", U64)]);
            all.extend([field("text", U32), field("digest", U32)]);
        }
        b'C' => all.push(field("answer", U32)),
        b'R' => {
            all.extend([field("number", U32), field("row", U64), field("tick", U32), field("task", U64)]);
            all.extend((1..=32).map(|k| field(format!("started{k}"), U32)));
        }
        b'M' | b'N' | b'B' => all.extend(written_fields("")),
        b'V' => {
            all.extend(written_fields("platform "));
            all.extend(written_fields("tasks "));
        }
        b'W' => {
            all.extend([field("number", U32), field("row", U64)]);
            all.extend([field("platform length", U64), field("tasks length", U64)]);
            all.extend([field("platform buffer", Text), field("tasks buffer", Text)]);
        }
        _ => return None,
    }
    Some(all)
}

/// Writes the values of the fields, in their forms.
pub fn put(to: &mut Vec<u8>, fields: &[Field], values: &[Value]) {
    assert_eq!(fields.len(), values.len(), "a value for each field");
    for (field, value) in fields.iter().zip(values) {
        match (field.form, value) {
            (U32, Value::Number(x)) => to.extend(u32::try_from(*x).unwrap().to_le_bytes()),
            (U64, Value::Number(x)) => to.extend(u64::try_from(*x).unwrap().to_le_bytes()),
            (I64, Value::Number(x)) => to.extend(i64::try_from(*x).unwrap().to_le_bytes()),
            (Text, Value::Bytes(b)) => {
                to.extend(u32::try_from(b.len()).unwrap().to_le_bytes());
                to.extend(b);
            }
            (form, value) => panic!("{} is {form:?}, and the value is {value:?}", field.name),
        }
    }
}

/// Reads one byte, or nothing at the end.
pub fn get_kind(from: &mut impl Read) -> io::Result<Option<u8>> {
    let mut one = [0];
    Ok((from.read(&mut one)? == 1).then_some(one[0]))
}

fn get_bytes<const N: usize>(from: &mut impl Read) -> io::Result<[u8; N]> {
    let mut some = [0; N];
    from.read_exact(&mut some)?;
    Ok(some)
}

pub fn get(from: &mut impl Read, fields: &[Field]) -> io::Result<Vec<Value>> {
    let mut values = vec![];
    for field in fields {
        values.push(match field.form {
            U32 => Value::Number(i128::from(u32::from_le_bytes(get_bytes(from)?))),
            U64 => Value::Number(i128::from(u64::from_le_bytes(get_bytes(from)?))),
            I64 => Value::Number(i128::from(i64::from_le_bytes(get_bytes(from)?))),
            Text => {
                let length = u32::from_le_bytes(get_bytes(from)?);
                let mut bytes = vec![];
                let read = from.take(u64::from(length)).read_to_end(&mut bytes)?;
                if read != length as usize {
                    return Err(io::ErrorKind::UnexpectedEof.into());
                }
                Value::Bytes(bytes)
            }
        });
    }
    Ok(values)
}

/// The values as text, without those that are 0 where there are many.
pub fn show(fields: &[Field], values: &[Value]) -> String {
    let brief = fields.len() > 12;
    let mut all = vec![];
    for (field, value) in fields.iter().zip(values) {
        match value {
            Value::Number(0) if brief => {}
            Value::Number(x) => all.push(format!("{}={x}", field.name)),
            Value::Bytes(b) => all.push(format!("{}={} bytes \"{}\"", field.name, b.len(), b.escape_ascii())),
        }
    }
    all.join(" ")
}

#[cfg(test)]
mod tests {
    use super::*;

    #[test]
    fn what_is_put_is_got() {
        let fields = [field("a", U32), field("b", U64), field("c", I64), field("d", Text)];
        let values = [
            Value::Number(1),
            Value::Number(u64::MAX.into()),
            Value::Number(i64::MIN.into()),
            Value::Bytes(b"1,2\r\n".to_vec()),
        ];
        let mut bytes = vec![];
        put(&mut bytes, &fields, &values);
        assert_eq!(bytes.len(), 4 + 8 + 8 + 4 + 5);
        assert_eq!(get(&mut &bytes[..], &fields).unwrap(), values);
        assert!(get(&mut &bytes[..28], &fields).is_err());
    }

    #[test]
    fn sizes() {
        let size = |fields: Option<Vec<Field>>| {
            fields.unwrap().iter().map(|f| if f.form == U32 { 4 } else { 8 }).sum::<usize>()
        };
        assert_eq!([b'A', b'S', b'T', b'X', b'R'].map(|k| 1 + size(case_fields(k))), [529, 529, 9, 1177, 529]);
        assert_eq!([b'A', b'S', b'T', b'X', b'R'].map(|k| size(answer_fields(k))), [304, 16, 28, 28, 152]);
    }
}
