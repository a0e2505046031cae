//! Cases of texts: what is read, by set-up from two texts (U) and the program "ticks" (N); writers (V, and W for two
//! texts at once); the quick verdict (C); and the programs' whole work (M, N, B).

use crate::cases_admission::{refused_values, table_values};
use crate::counts::Counts;
use crate::draw::texts::{pair, platform_rows, spoiled, task_rows, three, whole, Three};
use crate::draw::{states, tables};
use crate::files::Pair;
use crate::machine::Machine;
use crate::programs::{admit, refused_by, rehearse, set_up, ticks, verdict};
use crate::records::{Value, BEFORE, MOST, PAST};
use crate::rng::Rng;
use crate::table::{Refused, ROWS};
use crate::texts::{put, read, write as text_of, Form, PLATFORM, TASKS, TICKS};
use std::io;

struct Run {
    rng: Rng,
    counts: Counts,
    pair: Pair,
    kept: Machine,
}

fn numbers(of: impl IntoIterator<Item = u64>) -> Vec<Value> {
    of.into_iter().map(|x| Value::Number(x.into())).collect()
}

fn bytes(text: &[u8]) -> Value {
    Value::Bytes(text.to_vec())
}

/// A text by itself into a buffer with this room and so many bytes behind it: the refusal, and the whole answer.
fn written(text: &[u8], room: usize, past: usize) -> (Option<Refused>, Vec<Value>) {
    let mut buffer = [vec![BEFORE; room]];
    let refused = put(&[text.to_vec()], &mut buffer).err();
    let mut answer = refused_values(refused).to_vec();
    answer.extend(numbers([if refused.is_none() { text.len() as u64 } else { 0 }]));
    answer.push(bytes(&[buffer.concat(), vec![BEFORE; past]].concat()));
    (refused, answer)
}

/// Room for a program's text: mostly more than it needs, often just enough, and else one byte too few, little or none.
/// The proved code does not measure a listing of ticks where there are 36 bytes and 106 for each row, so room is drawn
/// on both sides of that too.
fn room(rng: &mut Rng, text: &[u8]) -> usize {
    let rows = text.iter().filter(|&&b| b == b'\n').count() - 1;
    let plenty = 36 + 106 * rows;
    let room = match rng.range(0, 15) {
        0..=2 => text.len(),
        3 | 4 => text.len() - 1,
        5 => 0,
        6 => rng.index(text.len()),
        7 | 8 => plenty - rng.index(2),
        9..=11 => plenty + rng.scaled(1, 4095) as usize,
        12 if rng.once_in(30) => MOST,
        _ => text.len() + rng.scaled(1, 4095) as usize,
    };
    room.min(MOST)
}

impl Run {
    /// Counts how a text of the form reads: well, or up to its end, or up to a byte that cannot stand there.
    fn count_read(&mut self, form: &Form, text: &[u8]) {
        let how = match read(form, text) {
            Ok(_) => "good",
            Err(r) if r.at == text.len() as u64 => "cut short",
            Err(_) => "a byte that cannot stand there",
        };
        self.counts.add(format!("{} {how}", form.header));
    }

    /// Set-up of the machine kept from two texts, which is kept where they are refused.
    fn set_up(&mut self, platform: &[u8], tasks: &[u8]) -> io::Result<()> {
        let (refused, text) = match set_up(platform, tasks) {
            Ok(machine) => {
                self.kept = machine;
                (None, 0)
            }
            Err((r, text)) => (Some(r), text),
        };
        self.counts.add(refused.map_or("U set up".to_string(), |r| format!("U refused {}, text {text}", r.number)));
        let mut answer = refused_values(refused).to_vec();
        answer.extend(numbers([text.into(), self.kept.digest().into()]));
        self.pair.write(b'U', &[bytes(platform), bytes(tasks)], &answer)
    }

    /// A platform text and a tasks text, each spoiled and beside a good other: set up, they show every number; and a
    /// spoiled ticks text, run.
    fn readers(&mut self) -> io::Result<()> {
        let [platform, tasks, reports] = whole(&mut self.rng);
        let spoil = |run: &mut Run, form: &Form, text: Vec<u8>| {
            let text = spoiled(&mut run.rng, form, text);
            run.count_read(form, &text);
            text
        };
        let text = spoil(self, &PLATFORM, platform.clone());
        self.set_up(&text, b"D,T,C,A\r\n1,1,1,0\r\n")?;
        let text = spoil(self, &TASKS, tasks.clone());
        let widest: &[u8] = b"cores,partitions\r\n16,64\r\n";
        let beside = self.rng.pick(&[&platform[..], widest]);
        self.set_up(beside, &text)?;
        let text = spoil(self, &TICKS, reports);
        let says = ticks(Some(&platform), Some(&tasks), &text);
        let case = [
            numbers([1]),
            vec![bytes(&platform)],
            numbers([1]),
            vec![bytes(&tasks), bytes(&text)],
            numbers([says.len() as u64]),
        ]
        .concat();
        self.pair.write(b'N', &case, &written(&says, says.len(), PAST).1)
    }

    /// What came of a program's text. One that says a refusal can be too long for its buffer just as a listing can.
    fn count_text(&mut self, name: &str, text: &[u8], refused: Option<Refused>) {
        let outcome = match (refused_by(text), refused) {
            (None, None) => "listed".to_string(),
            (Some(number), None) => format!("refused {number}"),
            (None, Some(r)) => format!("refused {}, a listing", r.number),
            (Some(_), Some(r)) => format!("refused {}, a refusal", r.number),
        };
        self.counts.add(format!("{name} {outcome}"));
    }

    /// A program's text into a buffer with some room.
    fn program(&mut self, kind: u8, mut case: Vec<Value>, text: &[u8]) -> io::Result<()> {
        let room = room(&mut self.rng, text);
        let (refused, answer) = written(text, room, PAST);
        self.count_text(&char::from(kind).to_string(), text, refused);
        if room == text.len() {
            self.counts.add(format!("{} without a byte to spare", char::from(kind)));
        }
        case.extend(numbers([room as u64]));
        self.pair.write(kind, &case, &answer)
    }

    /// The programs' work, the quick verdict and set-up, on the same texts.
    fn programs(&mut self, given: &Three) -> io::Result<()> {
        let (platform, tasks) = (given.platform.as_deref(), given.tasks.as_deref());
        let file = |text: Option<&[u8]>| [Value::Number(text.is_some().into()), bytes(text.unwrap_or_default())];
        let mut case = [file(platform), file(tasks)].concat();
        self.program(b'M', case.clone(), &admit(platform, tasks))?;
        // a rehearsal can take a million ticks, and kind R tries its numbers
        if self.rng.once_in(2) {
            self.program(b'B', case.clone(), &rehearse(platform, tasks))?;
        }
        case.push(bytes(&given.ticks));
        self.program(b'N', case, &ticks(platform, tasks, &given.ticks))?;
        self.set_up(platform.unwrap_or_default(), tasks.unwrap_or_default())?;
        let answer = self.verdict(platform.unwrap_or_default(), tasks.unwrap_or_default())?;
        self.counts.add(if answer > 100 { "C not admitted".to_string() } else { format!("C {answer}") });
        Ok(())
    }

    fn verdict(&mut self, platform: &[u8], tasks: &[u8]) -> io::Result<u32> {
        let answer = verdict(platform, tasks);
        self.pair.write(b'C', &[bytes(platform), bytes(tasks)], &numbers([answer.into()]))?;
        Ok(answer)
    }

    /// Platform and tasks texts of a table, good or not, into buffers that are long enough or just too short: each by
    /// itself (V) and both at once (W).
    fn writers(&mut self, kind: u8) -> io::Result<()> {
        let rng = &mut self.rng;
        let mut table = if rng.once_in(2) { states::busy_table(rng) } else { tables::wild(rng) };
        table.n = table.n.min(ROWS as u64);
        let texts = [text_of(&PLATFORM, &platform_rows(&table)), text_of(&TASKS, &task_rows(&table))];
        let rooms = texts.each_ref().map(|text| {
            let length =
                rng.pick(&[text.len(), text.len(), text.len() + 1, text.len() + 30, text.len() - 1, 0, text.len() / 2]);
            if rng.once_in(2) {
                text.len()
            } else {
                length
            }
        });
        let mut case = table_values(&table);
        case.extend(numbers(rooms.map(|room| room as u64)));
        let mut answer = vec![];
        if kind == b'W' {
            let mut buffers = rooms.map(|room| vec![BEFORE; room]);
            let refused = put(&texts, &mut buffers).err();
            self.counts.add(refused.map_or("W written".to_string(), |r| format!("W refused {}", r.number)));
            answer.extend(refused_values(refused));
            answer.extend(numbers(texts.each_ref().map(|text| if refused.is_none() { text.len() as u64 } else { 0 })));
            answer.extend(buffers.map(|b| bytes(&b)));
        } else {
            for (text, room) in texts.iter().zip(rooms) {
                let (refused, values) = written(text, room, 0);
                self.counts.add(refused.map_or("V written".to_string(), |r| format!("V refused {}", r.number)));
                answer.extend(values);
            }
        }
        self.pair.write(kind, &case, &answer)
    }

    /// Prints the counts and closes the files; the answer is false if an outcome was met less than once in two thousand
    /// cases.
    fn end(self, wanted: &[String]) -> io::Result<bool> {
        println!("{} cases of texts:", self.pair.written);
        self.counts.print();
        let least = self.pair.written / 2000;
        self.pair.close()?;
        let rare = self.counts.rarer(&wanted.iter().map(String::as_str).collect::<Vec<_>>(), least);
        if !rare.is_empty() {
            println!("met too seldom: {}", rare.join(", "));
        }
        Ok(rare.is_empty())
    }
}

fn begin(seed: u64, pair: Pair) -> Run {
    Run { rng: Rng::new(seed), counts: Counts::default(), pair, kept: Machine::zero() }
}

/// The three readers, through what stands on them.
pub fn write_readers(count_of: u64, seed: u64, pair: Pair) -> io::Result<bool> {
    let mut run = begin(seed, pair);
    while run.pair.written < count_of {
        run.readers()?;
    }
    let outcomes = ["good", "cut short", "a byte that cannot stand there"];
    let mut wanted = [&PLATFORM, &TASKS, &TICKS]
        .iter()
        .flat_map(|form| outcomes.map(|what| format!("{} {what}", form.header)))
        .collect::<Vec<_>>();
    wanted.extend(["U set up", "U refused 15, text 1", "U refused 15, text 2"].map(String::from));
    wanted.extend([1, 2, 3, 4, 5, 6, 7, 8].map(|number| format!("U refused {number}, text 0")));
    run.end(&wanted)
}

/// The writers, one text at a time.
pub fn write_writers(count_of: u64, seed: u64, pair: Pair) -> io::Result<bool> {
    let mut run = begin(seed, pair);
    while run.pair.written < count_of {
        run.writers(b'V')?;
    }
    run.end(&["V written", "V refused 16"].map(String::from))
}

/// The quick verdict alone, with every number that it can answer.
pub fn write_verdicts(count_of: u64, seed: u64, files: Pair) -> io::Result<bool> {
    let mut run = begin(seed, files);
    while run.pair.written < count_of {
        let [platform, tasks] = pair(&mut run.rng);
        let answer = run.verdict(&platform, &tasks)?;
        run.counts.add(format!("C {answer:03}"));
    }
    let answers = [0, 15].into_iter().chain(1..=8).chain(101..=132);
    run.end(&answers.map(|answer| format!("C {answer:03}")).collect::<Vec<_>>())
}

/// Whole texts in: the programs' work, the quick verdict and set-up, and two texts out.
pub fn write(count_of: u64, seed: u64, pair: Pair) -> io::Result<bool> {
    let mut run = begin(seed, pair);
    while run.pair.written < count_of {
        let given = three(&mut run.rng);
        run.programs(&given)?;
        run.writers(b'W')?;
    }
    let mut wanted = [
        "C 0",
        "C 15",
        "C not admitted",
        "U set up",
        "U refused 15, text 1",
        "U refused 15, text 2",
        "W written",
        "W refused 16",
    ]
    .map(String::from)
    .to_vec();
    for kind in ["M", "N", "B"] {
        let outcomes = ["listed", "refused 16, a listing", "refused 16, a refusal", "without a byte to spare"];
        wanted.extend(outcomes.map(|what| format!("{kind} {what}")));
        wanted.extend([15, 1, 2, 3, 4, 5, 6, 7, 8].map(|number| format!("{kind} refused {number}")));
    }
    wanted.push("B refused 17".to_string());
    run.end(&wanted)
}

#[cfg(test)]
mod tests {
    use super::*;

    #[test]
    fn bytes_that_are_not_the_text_stay_as_they_were() {
        let answer = |room| written(b"1\r\n", room, 2).1;
        let of = |number: u64, length: u64, buffer: &[u8]| [numbers([number, 0, length]), vec![bytes(buffer)]].concat();
        assert_eq!(answer(0), of(16, 0, &[BEFORE; 2]));
        assert_eq!(answer(2), of(16, 0, &[BEFORE; 4]));
        assert_eq!(answer(3), of(0, 3, b"1\r\n\xa5\xa5"));
        assert_eq!(answer(4), of(0, 3, b"1\r\n\xa5\xa5\xa5"));
    }
}
