//! Elements put together field by field, apart from the maker of cases.
#![allow(dead_code)]

use second::bits::Pen;
use second::read::{read, Reading, MAP_NUMBERS};
use second::record::{Form, Record};
use second::refusal::Refusal;
use second::rows::rows_of_any;

pub type Field = (&'static str, u64, u64);

/// Type 2, index 6, channel 1: 16 bits.
pub const CORE: [Field; 6] = [
    ("type", 2, 5),
    ("index", 6, 4),
    ("channels", 1, 4),
    ("frame length flag", 0, 1),
    ("depends", 0, 1),
    ("extension flag", 0, 1),
];
/// 0x2B7, type 5, flag 1, index 3: 21 bits more.
pub const SBR: [Field; 4] = [
    ("sbr sync", 0x2B7, 11),
    ("extension type", 5, 5),
    ("sbr flag", 1, 1),
    ("extension index", 3, 4),
];
/// 0x548 and 1: 12 bits more.
pub const PS: [Field; 2] = [("ps sync", 0x548, 11), ("ps flag", 1, 1)];

#[derive(Clone)]
pub struct Draft {
    pub fields: Vec<Field>,
}

impl Draft {
    pub fn new(fields: &[Field]) -> Self {
        Draft {
            fields: fields.to_vec(),
        }
    }

    pub fn add(mut self, fields: &[Field]) -> Self {
        self.fields.extend(fields);
        self
    }

    /// One stream, one subframe and an empty slot.
    pub fn version0(audio: &[Field]) -> Self {
        Draft::new(&[("same mux", 0, 1), ("version", 0, 1)])
            .add(&HEAD)
            .add(audio)
            .add(&SLOT)
            .add(&[("other", 0, 1), ("crc", 0, 1), ("length", 0, 8)])
    }

    /// As `version0`, with ascLen in one byte before `audio`.
    pub fn version1(asc_len: u64, audio: &[Field]) -> Self {
        Draft::new(&[("same mux", 0, 1), ("version", 1, 1), ("version a", 0, 1)])
            .add(&[("tara count", 0, 2), ("tara", 0, 8)])
            .add(&HEAD)
            .add(&[("asc count", 0, 2), ("asc len", asc_len, 8)])
            .add(audio)
            .add(&SLOT)
            .add(&[("other", 0, 1), ("crc", 0, 1), ("length", 0, 8)])
    }

    pub fn with(mut self, name: &str, value: u64) -> Self {
        let place = self.index(name);
        self.fields[place].1 = value;
        self
    }

    pub fn after(mut self, name: &str, fields: &[Field]) -> Self {
        let place = self.index(name) + 1;
        self.fields.splice(place..place, fields.iter().copied());
        self
    }

    pub fn until(mut self, name: &str) -> Self {
        self.fields.truncate(self.index(name));
        self
    }

    pub fn bytes(&self) -> Vec<u8> {
        let mut pen = Pen::default();
        for (_, value, width) in &self.fields {
            pen.put(*value, *width);
        }
        pen.into_bytes()
    }

    pub fn first_bit(&self, name: &str) -> u64 {
        self.fields[..self.index(name)]
            .iter()
            .map(|field| field.2)
            .sum()
    }

    pub fn fields_before(&self, name: &str) -> u64 {
        self.index(name) as u64
    }

    fn index(&self, name: &str) -> usize {
        self.fields
            .iter()
            .position(|field| field.0 == name)
            .expect("a field of this name")
    }
}

const HEAD: [Field; 4] = [
    ("framing", 1, 1),
    ("subframes", 0, 6),
    ("programs", 0, 4),
    ("layers", 0, 3),
];
const SLOT: [Field; 2] = [("slot type", 0, 3), ("slot value", 255, 8)];

pub fn concat(parts: &[&[Field]]) -> Vec<Field> {
    parts.concat()
}

/// The core under type 5 or 29, extension index 3: 25 bits.
pub fn layered(outer: u64) -> Vec<Field> {
    let mut audio = CORE.to_vec();
    audio[0].1 = outer;
    audio.splice(3..3, [("extension index", 3, 4), ("core", 2, 5)]);
    audio
}

pub fn read_alone(element: &[u8]) -> Result<Reading, Refusal> {
    read(element, None, MAP_NUMBERS)
}

pub fn refusal(number: u8, place: u64, fields: u64) -> Refusal {
    Refusal {
        number,
        place,
        fields,
    }
}

pub fn held_by(element: &[u8]) -> Record {
    read_alone(element).expect("an accepted element").held
}

pub fn accept(draft: &Draft) -> Reading {
    read_alone(&draft.bytes()).expect("an accepted element")
}

/// The value of the named field is refused there, and the field is counted.
pub fn refuse_value(draft: &Draft, name: &str, number: u8) {
    let expected = refusal(number, draft.first_bit(name), draft.fields_before(name) + 1);
    assert_eq!(read_alone(&draft.bytes()), Err(expected), "{name}");
}

/// The named field runs out: it isn't counted.
pub fn refuse_end(draft: &Draft, name: &str, number: u8) {
    let expected = refusal(number, draft.first_bit(name), draft.fields_before(name));
    assert_eq!(read_alone(&draft.bytes()), Err(expected), "{name}");
}

pub const WORKED: [u8; 17] = [
    0x56, 0xE0, 0x09, 0x20, 0x00, 0x11, 0x90, 0x1F, 0xE0, 0x15, 0x5E, 0x68, 0x56, 0xE0, 0x02, 0x80,
    0x00,
];

pub fn first_worked() -> &'static [u8] {
    &WORKED[3..12]
}

/// Whether a row is of type 29, its PS and its channel configuration.
type PsOver = (bool, i8, u64);

/// Both forms of PS 1 over each channel configuration, and PS 0 and -1 over 1 are
/// among the rows of these records; those over 1 at least ten times.
pub fn meet_ps_over_each(records: &[Record]) {
    let met: Vec<PsOver> = records.iter().flat_map(ps_over).collect();
    let both = |configuration| [(true, 1, configuration), (false, 1, configuration)];
    let ps_1 = (1..=7).flat_map(both);
    for wanted in ps_1.chain([(false, 0, 1), (false, -1, 1)]) {
        let times = met.iter().filter(|row| **row == wanted).count();
        let least = if wanted.2 == 1 { 10 } else { 1 };
        assert!(times >= least, "{wanted:?} is met {times} times");
    }
}

fn ps_over(record: &Record) -> Vec<PsOver> {
    let rows = rows_of_any(record);
    rows.iter()
        .map(|row| {
            let audio = &record.streams[row.stream].audio;
            let type29 = matches!(audio.form, Form::Type29(_));
            (type29, row.ps, audio.channels)
        })
        .collect()
}
