//! The listing: lines of 24 bytes, one for each item or refused element.

use crate::capture::Capture;
use crate::read::{Item, Kind};

pub fn listing(bytes: &[u8]) -> String {
    let mut text = String::new();
    for step in Capture::new(bytes) {
        match step.outcome {
            Ok(reading) => reading
                .items
                .iter()
                .for_each(|item| text += &item_line(step.number, item)),
            Err(refusal) => {
                let number = u64::from(refusal.number);
                text += &line(step.number, 'X', number, refusal.place, refusal.fields);
            }
        }
    }
    text
}

fn item_line(element: usize, item: &Item) -> String {
    line(
        element,
        letter(item.kind),
        item.stream,
        item.first,
        item.width,
    )
}

fn line(element: usize, letter: char, stream: u64, first: u64, width: u64) -> String {
    format!("{element:06} {letter} {stream:02} {first:05} {width:05}\n")
}

fn letter(kind: Kind) -> char {
    match kind {
        Kind::Flag => 'U',
        Kind::Configuration => 'C',
        Kind::Lengths => 'L',
        Kind::Payload => 'P',
        Kind::OtherData => 'O',
        Kind::Alignment => 'A',
    }
}
