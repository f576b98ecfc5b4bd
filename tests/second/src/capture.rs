//! Reads the elements of a capture one after another.

use crate::read::{read, Reading, MAP_NUMBERS};
use crate::record::Record;
use crate::refusal::Refusal;
use crate::sync::hunt;

pub struct Capture<'a> {
    bytes: &'a [u8],
    start: usize,
    number: usize,
    held: Option<Record>,
}

pub struct Step {
    pub number: usize,
    pub outcome: Result<Reading, Refusal>,
    /// The element gave the held configuration another value.
    pub changed: bool,
}

impl<'a> Capture<'a> {
    pub fn new(bytes: &'a [u8]) -> Self {
        Capture {
            bytes,
            start: 0,
            number: 0,
            held: None,
        }
    }

    fn hold(&mut self, record: &Record) -> bool {
        let changed = self.held.as_ref() != Some(record);
        if changed {
            self.held = Some(record.clone());
        }
        changed
    }
}

impl Iterator for Capture<'_> {
    type Item = Step;

    fn next(&mut self) -> Option<Step> {
        let frame = hunt(self.bytes, self.start).ok()?;
        self.start = frame.end();
        let number = self.number;
        self.number += 1;
        let outcome = read(frame.element(self.bytes), self.held.as_ref(), MAP_NUMBERS);
        let changed = match &outcome {
            Ok(reading) => self.hold(&reading.held),
            Err(_) => false,
        };
        Some(Step {
            number,
            outcome,
            changed,
        })
    }
}
