//! Lays elements out as cells that stay open to change: a cell is one field,
//! or one stretch of fill, payload, other data or alignment.

use crate::random::Random;
use crate::record::{AudioConfig, Form, Frequency, Record, Stream};

#[derive(Clone, Copy, Debug, PartialEq, Eq)]
pub enum Name {
    SameStreamMux,
    Version,
    VersionA,
    Tara,
    SameFraming,
    SubFrames,
    Programs,
    Layers,
    SameConfig,
    AscLenCount,
    AscLen,
    ObjectType,
    CoreType,
    FrequencyIndex,
    Hertz,
    Channels,
    FrameLengthFlag,
    DependsOnCoreCoder,
    ExtensionFlag,
    SbrSync,
    ExtensionType,
    MoreType,
    SbrFlag,
    PsSync,
    PsFlag,
    Fill,
    FrameLengthType,
    BufferFullness,
    FrameLength,
    OtherPresent,
    OtherMore,
    OtherLength,
    CrcPresent,
    Crc,
    SlotLength,
    Payload,
    OtherData,
    Alignment,
}

#[derive(Clone, Debug)]
pub struct Cell {
    pub name: Name,
    pub bits: Vec<bool>,
}

impl Cell {
    fn new(name: Name, value: u64, width: u64) -> Self {
        let mut cell = Cell {
            name,
            bits: vec![false; width as usize],
        };
        cell.set(value);
        cell
    }

    fn drawn(name: Name, width: u64, random: &mut Random) -> Self {
        Cell {
            name,
            bits: (0..width).map(|_| random.once_in(2)).collect(),
        }
    }

    pub fn set(&mut self, value: u64) {
        for (shift, bit) in self.bits.iter_mut().rev().enumerate() {
            *bit = value >> shift & 1 == 1;
        }
    }

    pub fn value(&self) -> u64 {
        self.bits
            .iter()
            .fold(0, |value, bit| value << 1 | u64::from(*bit))
    }

    pub fn is_field(&self) -> bool {
        !matches!(
            self.name,
            Name::Fill | Name::Payload | Name::OtherData | Name::Alignment
        )
    }
}

/// The cells of an element in order.
#[derive(Clone, Debug, Default)]
pub struct Sheet {
    pub cells: Vec<Cell>,
}

impl Sheet {
    /// The first bit of a cell.
    pub fn first_bit(&self, cell: usize) -> usize {
        self.cells[..cell].iter().map(|cell| cell.bits.len()).sum()
    }

    pub fn fields_before(&self, cell: usize) -> usize {
        self.cells[..cell]
            .iter()
            .filter(|cell| cell.is_field())
            .count()
    }

    /// How many cells stand before the first subframe.
    pub fn header_cells(&self) -> usize {
        let body = [
            Name::SlotLength,
            Name::Payload,
            Name::OtherData,
            Name::Alignment,
        ];
        self.cells
            .iter()
            .take_while(|cell| !body.contains(&cell.name))
            .count()
    }

    pub fn places(&self, name: Name) -> Vec<usize> {
        (0..self.cells.len())
            .filter(|place| self.cells[*place].name == name)
            .collect()
    }

    pub fn bytes(&self) -> Vec<u8> {
        let bits: Vec<bool> = self
            .cells
            .iter()
            .flat_map(|cell| cell.bits.iter().copied())
            .collect();
        bits.chunks(8).map(byte).collect()
    }

    fn add(&mut self, name: Name, value: u64, width: u64) {
        self.cells.push(Cell::new(name, value, width));
    }

    fn add_drawn(&mut self, name: Name, width: u64, random: &mut Random) {
        self.cells.push(Cell::drawn(name, width, random));
    }

    fn bits(&self) -> u64 {
        self.first_bit(self.cells.len()) as u64
    }
}

fn byte(bits: &[bool]) -> u8 {
    bits.iter()
        .enumerate()
        .fold(0, |byte, (place, bit)| byte | u8::from(*bit) << (7 - place))
}

/// Lays out an element of this record. Where the syntax leaves a choice it is
/// drawn: longer variable values and groups, fill, bits that say nothing after
/// a configuration, configurations repeated in full.
pub fn lay_out(record: &Record, send: bool, lengths: &[u64], random: &mut Random) -> Sheet {
    let mut sheet = Sheet::default();
    sheet.add(Name::SameStreamMux, u64::from(!send), 1);
    if send {
        head(&mut sheet, record, random);
        programs(&mut sheet, record, random);
        tail(&mut sheet, record, random);
    }
    for lengths in lengths.chunks(record.stream_count()) {
        sub_frame(&mut sheet, record, lengths, random);
    }
    if record.other_present == 1 {
        sheet.add_drawn(Name::OtherData, record.other_bits, random);
    }
    sheet.add_drawn(Name::Alignment, (8 - sheet.bits() % 8) % 8, random);
    sheet
}

fn head(sheet: &mut Sheet, record: &Record, random: &mut Random) {
    sheet.add(Name::Version, record.version, 1);
    if record.version == 1 {
        sheet.add(Name::VersionA, 0, 1);
        variable(sheet, Name::Tara, Name::Tara, record.tara, random);
    }
    sheet.add(Name::SameFraming, 1, 1);
    sheet.add(Name::SubFrames, record.num_sub_frames, 6);
    sheet.add(Name::Programs, record.num_program, 4);
}

fn programs(sheet: &mut Sheet, record: &Record, random: &mut Random) {
    let mut place = 0;
    for program in 0..=record.num_program as usize {
        sheet.add(Name::Layers, record.num_layer[program], 3);
        for _ in 0..=record.num_layer[program] {
            stream(sheet, record, place, random);
            place += 1;
        }
    }
}

fn tail(sheet: &mut Sheet, record: &Record, random: &mut Random) {
    sheet.add(Name::OtherPresent, record.other_present, 1);
    if record.other_present == 1 && record.version == 1 {
        variable(
            sheet,
            Name::OtherLength,
            Name::OtherLength,
            record.other_bits,
            random,
        );
    }
    if record.other_present == 1 && record.version == 0 {
        groups(sheet, record.other_bits, random);
    }
    sheet.add(Name::CrcPresent, record.crc_present, 1);
    if record.crc_present == 1 {
        sheet.add(Name::Crc, record.crc, 8);
    }
}

/// The bytes for a value: as few as can be, or more, at most four.
fn byte_count(value: u64, random: &mut Random) -> u64 {
    let least = (1..4).find(|bytes| value >> (8 * bytes) == 0).unwrap_or(4);
    let any = random.between(least, 4);
    random.pick(&[least, least, any, 4, 4])
}

fn variable(sheet: &mut Sheet, count: Name, name: Name, value: u64, random: &mut Random) {
    let bytes = byte_count(value, random);
    sheet.add(count, bytes - 1, 2);
    for after in (0..bytes).rev() {
        sheet.add(name, value >> (8 * after), 8);
    }
}

fn groups(sheet: &mut Sheet, value: u64, random: &mut Random) {
    for after in (0..byte_count(value, random)).rev() {
        sheet.add(Name::OtherMore, u64::from(after > 0), 1);
        sheet.add(Name::OtherLength, value >> (8 * after), 8);
    }
}

fn stream(sheet: &mut Sheet, record: &Record, place: usize, random: &mut Random) {
    let stream = &record.streams[place];
    let equal = place > 0 && record.streams[place - 1].audio == stream.audio;
    let same = equal && !random.once_in(4);
    if place > 0 {
        sheet.add(Name::SameConfig, u64::from(same), 1);
    }
    if !same {
        audio_config(sheet, record.version, &stream.audio, random);
    }
    slot_kind(sheet, stream);
}

fn slot_kind(sheet: &mut Sheet, stream: &Stream) {
    sheet.add(Name::FrameLengthType, stream.frame_length_type, 3);
    if stream.frame_length_type == 0 {
        sheet.add(Name::BufferFullness, stream.buffer_fullness, 8);
    } else {
        sheet.add(Name::FrameLength, stream.frame_length, 9);
    }
}

fn audio_config(sheet: &mut Sheet, version: u64, audio: &AudioConfig, random: &mut Random) {
    let mut config = Sheet::default();
    core(&mut config, audio);
    if version == 1 {
        after_core(&mut config, audio.form, random);
        variable(
            sheet,
            Name::AscLenCount,
            Name::AscLen,
            config.bits(),
            random,
        );
    }
    sheet.cells.append(&mut config.cells);
}

fn core(sheet: &mut Sheet, audio: &AudioConfig) {
    let (outer, extension) = match audio.form {
        Form::Type5(extension) => (5, Some(extension)),
        Form::Type29(extension) => (29, Some(extension)),
        _ => (audio.core_type, None),
    };
    sheet.add(Name::ObjectType, outer, 5);
    frequency(sheet, audio.frequency);
    sheet.add(Name::Channels, audio.channels, 4);
    if let Some(extension) = extension {
        frequency(sheet, extension);
        sheet.add(Name::CoreType, audio.core_type, 5);
    }
    sheet.add(Name::FrameLengthFlag, audio.frame_length_flag, 1);
    sheet.add(Name::DependsOnCoreCoder, 0, 1);
    sheet.add(Name::ExtensionFlag, 0, 1);
}

fn frequency(sheet: &mut Sheet, frequency: Frequency) {
    match frequency {
        Frequency::Index(index) => sheet.add(Name::FrequencyIndex, index, 4),
        Frequency::Hertz(hertz) => {
            sheet.add(Name::FrequencyIndex, 15, 4);
            sheet.add(Name::Hertz, hertz, 24);
        }
    }
}

fn after_core(sheet: &mut Sheet, form: Form, random: &mut Random) {
    match form {
        Form::None => after_silent_core(sheet, random),
        Form::Type5(_) | Form::Type29(_) => fill(sheet, 0, 60, random),
        Form::SbrOff => {
            sbr(sheet, 0);
            fill(sheet, 0, 60, random);
        }
        Form::SbrOn(extension) => {
            sbr(sheet, 1);
            frequency(sheet, extension);
            after_silent_sbr(sheet, random);
        }
        Form::SbrOnPs(extension, ps) => {
            sbr(sheet, 1);
            frequency(sheet, extension);
            sheet.add(Name::PsSync, 0x548, 11);
            sheet.add(Name::PsFlag, ps, 1);
            fill(sheet, 0, 60, random);
        }
    }
}

fn sbr(sheet: &mut Sheet, flag: u64) {
    sheet.add(Name::SbrSync, 0x2B7, 11);
    sheet.add(Name::ExtensionType, 5, 5);
    sheet.add(Name::SbrFlag, flag, 1);
}

/// Bits in which no SBR flag is found: too few, another sync, another type.
fn after_silent_core(sheet: &mut Sheet, random: &mut Random) {
    match random.below(6) {
        0..=2 => fill(sheet, 0, 15, random),
        3 => {
            sheet.add(Name::SbrSync, other_sync(0x2B7, random), 11);
            fill(sheet, 5, 60, random);
        }
        4 => {
            sheet.add(Name::SbrSync, 0x2B7, 11);
            sheet.add(
                Name::ExtensionType,
                random.pick(&[0, 1, 2, 4, 6, 21, 23, 29, 30]),
                5,
            );
            fill(sheet, 0, 60, random);
        }
        _ => {
            sheet.add(Name::SbrSync, 0x2B7, 11);
            sheet.add(Name::ExtensionType, 31, 5);
            sheet.add(Name::MoreType, random.below(64), 6);
            fill(sheet, 0, 60, random);
        }
    }
}

/// Bits in which no PS flag is found: too few, or another sync.
fn after_silent_sbr(sheet: &mut Sheet, random: &mut Random) {
    if random.once_in(3) {
        sheet.add(Name::PsSync, other_sync(0x548, random), 11);
        fill(sheet, 1, 60, random);
    } else {
        fill(sheet, 0, 11, random);
    }
}

fn other_sync(sync: u64, random: &mut Random) -> u64 {
    let any = random.below(1 << 11);
    let value = random.pick(&[0x2B7, 0x548, sync ^ 1, sync ^ 0x400, any]);
    if value == sync {
        0
    } else {
        value
    }
}

fn fill(sheet: &mut Sheet, least: u64, most: u64, random: &mut Random) {
    let any = random.between(least, most);
    let width = random.pick(&[least, least, most, any]);
    sheet.add_drawn(Name::Fill, width, random);
}

fn sub_frame(sheet: &mut Sheet, record: &Record, lengths: &[u64], random: &mut Random) {
    for (stream, length) in record.streams.iter().zip(lengths) {
        if stream.frame_length_type == 0 {
            slot_length(sheet, *length);
        }
    }
    for length in lengths {
        sheet.add_drawn(Name::Payload, 8 * length, random);
    }
}

fn slot_length(sheet: &mut Sheet, length: u64) {
    let mut left = length;
    while left >= 255 {
        sheet.add(Name::SlotLength, 255, 8);
        left -= 255;
    }
    sheet.add(Name::SlotLength, left, 8);
}
