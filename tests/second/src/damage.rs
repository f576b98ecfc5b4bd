//! Damages elements: in their cells, where a field gets a value out of range,
//! or in their bytes.

use crate::layout::{Cell, Name, Sheet};
use crate::random::Random;
use crate::record::STREAMS;
use std::ops::Range;

/// The fields with values out of range, and the refusal such a value is due.
pub const REFUSED_BY: [(Name, u8); 13] = [
    (Name::VersionA, 5),
    (Name::SameFraming, 6),
    (Name::Layers, 7),
    (Name::ObjectType, 8),
    (Name::CoreType, 8),
    (Name::ExtensionType, 8),
    (Name::FrequencyIndex, 9),
    (Name::Hertz, 9),
    (Name::Channels, 11),
    (Name::DependsOnCoreCoder, 12),
    (Name::ExtensionFlag, 12),
    (Name::FrameLengthType, 13),
    (Name::OtherMore, 14),
];

/// A sheet with one cell changed.
pub struct Spoiled {
    pub sheet: Sheet,
    pub cell: usize,
}

/// Gives one field of this name a value out of range, if there is one.
pub fn spoil(sheet: &Sheet, name: Name, random: &mut Random) -> Option<Spoiled> {
    let mut choices = sheet.places(name);
    choices.retain(|cell| !wrong_values(sheet, *cell).is_empty());
    if choices.is_empty() {
        return None;
    }
    let cell = random.pick(&choices);
    let value = random.pick(&wrong_values(sheet, cell));
    let mut sheet = sheet.clone();
    sheet.cells[cell].set(value);
    Some(Spoiled { sheet, cell })
}

fn wrong_values(sheet: &Sheet, cell: usize) -> Vec<u64> {
    match sheet.cells[cell].name {
        Name::VersionA | Name::DependsOnCoreCoder | Name::ExtensionFlag => vec![1],
        Name::SameFraming | Name::Hertz => vec![0],
        Name::Layers => wrong_layers(sheet, cell),
        Name::ObjectType => (0..32).filter(|kind| !matches!(kind, 1..=5 | 29)).collect(),
        Name::CoreType => (0..32).filter(|kind| !matches!(kind, 1..=4)).collect(),
        Name::ExtensionType => vec![22],
        Name::FrequencyIndex => vec![13, 14],
        Name::Channels => (0..16)
            .filter(|channels| !matches!(channels, 1..=7))
            .collect(),
        Name::FrameLengthType => (2..8).collect(),
        Name::OtherMore => wrong_more(sheet, cell),
        _ => Vec::new(),
    }
}

fn wrong_layers(sheet: &Sheet, cell: usize) -> Vec<u64> {
    let before = sheet.cells[..cell]
        .iter()
        .filter(|cell| cell.name == Name::Layers);
    let streams: u64 = before.map(|cell| cell.value() + 1).sum();
    (STREAMS as u64 - streams..8).collect()
}

/// Only the fourth group must not go on.
fn wrong_more(sheet: &Sheet, cell: usize) -> Vec<u64> {
    if sheet.places(Name::OtherMore).get(3) == Some(&cell) {
        vec![1]
    } else {
        Vec::new()
    }
}

/// Another ascLen before one of the configurations, if there is any. The cell
/// of the answer is the first one after it.
pub fn change_asc_len(sheet: &Sheet, random: &mut Random) -> Option<Spoiled> {
    let bytes = pick_asc_len(sheet, random)?;
    let old = sheet.cells[bytes.clone()]
        .iter()
        .fold(0, |value, cell| value << 8 | cell.value());
    let mut sheet = sheet.clone();
    set_bytes(&mut sheet.cells[bytes.clone()], other_length(old, random));
    Some(Spoiled {
        sheet,
        cell: bytes.end,
    })
}

/// Cuts the element in one of the configurations and lets its ascLen end close
/// to the cut, so that one field may pass both.
pub fn end_together(sheet: &Sheet, random: &mut Random) -> Option<Vec<u8>> {
    let bytes = pick_asc_len(sheet, random)?;
    let first = sheet.first_bit(bytes.end);
    let end = first / 8 + random.between(1, 6) as usize;
    let length = (8 * end - first) as u64 + random.below(9);
    let mut sheet = sheet.clone();
    set_bytes(&mut sheet.cells[bytes], length.saturating_sub(4));
    let mut element = sheet.bytes();
    element.truncate(end);
    Some(element)
}

/// The cells of the bytes of an ascLen.
fn pick_asc_len(sheet: &Sheet, random: &mut Random) -> Option<Range<usize>> {
    let counts = sheet.places(Name::AscLenCount);
    if counts.is_empty() {
        return None;
    }
    let count = random.pick(&counts);
    let bytes = sheet.cells[count].value() as usize + 1;
    Some(count + 1..count + 1 + bytes)
}

fn set_bytes(cells: &mut [Cell], value: u64) {
    for (place, cell) in cells.iter_mut().rev().enumerate() {
        cell.set(value >> (8 * place));
    }
}

fn other_length(old: u64, random: &mut Random) -> u64 {
    match random.below(8) {
        0 => random.pick(&[0, 4, 5, 9, 13, u64::MAX]),
        1 => old + random.between(1, 3000),
        2 | 3 => old + random.between(1, 20),
        4 => old - 1,
        _ => old - random.between(1, old.min(40)),
    }
}

/// Cuts the bytes somewhere; at least one stays where there is one.
pub fn cut(bytes: &[u8], random: &mut Random) -> Vec<u8> {
    cut_before(bytes, bytes.len(), random)
}

/// Cuts before a byte.
pub fn cut_before(bytes: &[u8], end: usize, random: &mut Random) -> Vec<u8> {
    let most = end.min(bytes.len()).max(2) as u64 - 1;
    bytes[..bytes.len().min(random.between(1, most) as usize)].to_vec()
}

/// Cuts a few bytes after a bit.
pub fn cut_after(bytes: &[u8], bit: usize, random: &mut Random) -> Vec<u8> {
    let end = bit / 8 + random.between(1, 7) as usize;
    bytes[..end.min(bytes.len())].to_vec()
}

/// Turns one of the first `bits` bits.
pub fn turn_bit(bytes: &[u8], bits: usize, random: &mut Random) -> Vec<u8> {
    let mut bytes = bytes.to_vec();
    let bit = random.below(bits.min(8 * bytes.len()) as u64) as usize;
    bytes[bit / 8] ^= 0x80 >> (bit % 8);
    bytes
}

pub fn add_bytes(bytes: &[u8], random: &mut Random) -> Vec<u8> {
    let mut bytes = bytes.to_vec();
    let more = random.pick(&[1, 1, 2, 40]);
    bytes.extend(random.bytes(more));
    bytes
}
