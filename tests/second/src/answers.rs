//! Answers the cases of a script, as docs/SCRIPT.md has them printed.

use crate::read::{read, Reading};
use crate::record::Record;
use crate::refusal::Refusal;
use crate::rows::{self, rows_of_any, Row};
use crate::script::{Case, Cases};
use crate::sync::{hunt, write_frame};
use crate::write::{write, Order};

/// Every number and byte lent holds this before.
const LENT: u8 = 7;

pub fn answers(script: &[u8]) -> String {
    let mut held = Held::default();
    Cases::new(script).map(|case| held.answer(case)).collect()
}

/// How often each refusal number is answered.
pub fn counts(script: &[u8]) -> [usize; 21] {
    let mut counts = [0; 21];
    for line in answers(script).lines() {
        let refused = line.strip_prefix("refused, ");
        if let Some((number, _)) = refused.and_then(|rest| rest.split_once(' ')) {
            counts[number.parse::<usize>().expect("a refusal number")] += 1;
        }
    }
    counts
}

/// How many of the rows answered have two channels by PS over one.
pub fn two_by_ps(script: &[u8]) -> usize {
    let mut held = Held::default();
    let mut count = 0;
    for case in Cases::new(script) {
        if case == Case::Rows {
            count += rows::two_by_ps(&held.record);
        }
        held.answer(case);
    }
    count
}

/// How many cases of each kind there are, in the order of docs/SCRIPT.md.
pub fn kinds(script: &[u8]) -> [(char, usize); 6] {
    ['H', 'R', 'W', 'S', 'P', 'F'].map(|kind| {
        let same = |case: &Case| case.letter() == kind;
        (kind, Cases::new(script).filter(same).count())
    })
}

/// The first case that the text answers in another way: its number, from 0, and
/// its kind. Text behind the last answer is as wrong as a case too many.
pub fn difference(script: &[u8], text: &[u8]) -> Option<String> {
    let mut held = Held::default();
    let mut left = text;
    for (number, case) in Cases::new(script).enumerate() {
        let kind = case.letter();
        match left.strip_prefix(held.answer(case).as_bytes()) {
            Some(rest) => left = rest,
            None => return Some(format!("case {number}, of kind {kind}")),
        }
    }
    (!left.is_empty()).then(|| "the end: there is more text".to_string())
}

/// A script that has the case of this number, from 0, behind one that holds what
/// is held before it; none where there is no such case.
pub fn alone(script: &[u8], number: usize) -> Option<Vec<u8>> {
    let mut held = Held::default();
    let mut cases = Cases::new(script);
    for _ in 0..number {
        held.answer(cases.next()?);
    }
    let before = Case::Hold {
        present: held.present,
        record: Box::new(held.record),
    };
    let mut alone = Vec::new();
    before.put(&mut alone);
    cases.next()?.put(&mut alone);
    Some(alone)
}

#[derive(Default)]
struct Held {
    present: bool,
    record: Record,
}

impl Held {
    fn answer(&mut self, case: Case) -> String {
        match case {
            Case::Hold { present, record } => {
                self.present = present;
                self.record = *record;
                String::new()
            }
            Case::Read { room, element } => self.read(room, &element),
            Case::Rows => rows_of_any(&self.record).iter().map(row_line).collect(),
            Case::Hunt { start, capture } => match hunt(&capture, start as usize) {
                Ok(frame) => format!("found {} {}\n", frame.place, frame.length),
                Err(refusal) => refusal_line(&refusal),
            },
            Case::Write {
                send,
                room,
                lengths,
                payload,
                other,
            } => {
                let lengths: Vec<u64> = lengths.into_iter().map(u64::from).collect();
                let order = Order {
                    record: &self.record,
                    send,
                    lengths: &lengths,
                    payload: &payload,
                    other: &other,
                };
                output_lines(room, |output| write(&order, output))
            }
            Case::Frame { room, element } => {
                output_lines(room, |output| write_frame(&element, output))
            }
        }
    }

    fn read(&mut self, room: u16, element: &[u8]) -> String {
        let mut map = vec![u32::from(LENT); usize::from(room)];
        let held = self.present.then_some(&self.record);
        match read(element, held, map.len()) {
            Ok(reading) => {
                let used = fill(&mut map, &reading);
                let text = reading_lines(&reading) + map_line(&map[used..]);
                if reading.sent {
                    self.present = true;
                    self.record = reading.held;
                }
                text
            }
            Err(refusal) => refusal_line(&refusal) + map_line(&map),
        }
    }
}

/// Puts the items at the front of the map and answers how many numbers they take.
fn fill(map: &mut [u32], reading: &Reading) -> usize {
    let numbers = reading.items.iter().flat_map(|item| {
        let kind = item.kind as u64;
        [kind, item.stream, item.first, item.width]
    });
    map.iter_mut()
        .zip(numbers)
        .for_each(|(place, number)| *place = number as u32);
    4 * reading.items.len()
}

fn reading_lines(reading: &Reading) -> String {
    let configuration = if reading.sent { "sent" } else { "held" };
    let mut text = format!(
        "accepted, items {}, fields {}, configuration {configuration}\n",
        reading.items.len(),
        reading.fields
    );
    for item in &reading.items {
        let kind = item.kind as u8;
        text += &format!("  {kind} {} {} {}\n", item.stream, item.first, item.width);
    }
    text
}

fn map_line(behind: &[u32]) -> &'static str {
    if behind.iter().all(|number| *number == u32::from(LENT)) {
        "map kept\n"
    } else {
        "map changed\n"
    }
}

fn output_lines(room: u16, fill: impl FnOnce(&mut [u8]) -> Result<usize, Refusal>) -> String {
    let mut output = vec![LENT; usize::from(room)];
    let (mut text, used) = match fill(&mut output) {
        Ok(size) => (
            format!("done {size}\n{}\n", hexadecimal(&output[..size])),
            size,
        ),
        Err(refusal) => (refusal_line(&refusal), 0),
    };
    text += if output[used..].iter().all(|byte| *byte == LENT) {
        "output kept\n"
    } else {
        "output changed\n"
    };
    text
}

fn hexadecimal(bytes: &[u8]) -> String {
    bytes.iter().map(|byte| format!("{byte:02x}")).collect()
}

fn refusal_line(refusal: &Refusal) -> String {
    let Refusal {
        number,
        place,
        fields,
    } = refusal;
    format!("refused, {number} at bit {place}, fields {fields}\n")
}

fn row_line(row: &Row) -> String {
    format!(
        "row {} {} {} {} {} {} {} {}\n",
        row.program,
        row.layer,
        row.core_type,
        row.core_hertz,
        row.output_hertz,
        row.sbr,
        row.ps,
        row.output_channels
    )
}
