//! Reads an element into the map of its parts and the record it leaves held.

use crate::bits;
use crate::record::{AudioConfig, Form, Frequency, Record, Stream, STREAMS};
use crate::refusal::Refusal;

pub const LONGEST_ELEMENT: usize = 8191;
pub const MAP_NUMBERS: usize = 4368;

const NO_WINDOW: u64 = u64::MAX;

#[derive(Clone, Copy, Debug, PartialEq, Eq)]
pub enum Kind {
    Flag = 1,
    Configuration = 2,
    Lengths = 3,
    Payload = 4,
    OtherData = 5,
    Alignment = 6,
}

#[derive(Clone, Copy, Debug, PartialEq, Eq)]
pub struct Item {
    pub kind: Kind,
    pub stream: u64,
    pub first: u64,
    pub width: u64,
}

#[derive(Clone, Debug, PartialEq, Eq)]
pub struct Reading {
    pub items: Vec<Item>,
    pub fields: u64,
    pub sent: bool,
    pub held: Record,
}

/// `room` is the count of numbers lent for the map.
pub fn read(element: &[u8], held: Option<&Record>, room: usize) -> Result<Reading, Refusal> {
    if room < MAP_NUMBERS {
        return Err(Refusal::plain(1));
    }
    if element.is_empty() || element.len() > LONGEST_ELEMENT {
        return Err(Refusal::plain(2));
    }
    let mut map = Map::default();
    let mut cursor = Cursor::new(element);
    let held = held.filter(|record| record.is_sendable());
    let same = cursor.checked(1, 4, |same| same == 0 || held.is_some())? == 1;
    map.add(Kind::Flag, 0, 0, cursor.place);
    let record = match held {
        Some(record) if same => record.clone(),
        _ => configuration(&mut cursor, &mut map)?,
    };
    for _ in 0..=record.num_sub_frames {
        sub_frame(&mut cursor, &mut map, record.sent_streams())?;
    }
    end(&mut cursor, &mut map, &record)?;
    Ok(Reading {
        items: map.items,
        fields: cursor.fields,
        sent: !same,
        held: record,
    })
}

#[derive(Default)]
struct Map {
    items: Vec<Item>,
}

impl Map {
    fn add(&mut self, kind: Kind, stream: usize, first: u64, end: u64) {
        self.items.push(Item {
            kind,
            stream: stream as u64,
            first,
            width: end - first,
        });
    }
}

/// Where the reading stands. The window ends where ascLen does.
struct Cursor<'a> {
    element: &'a [u8],
    place: u64,
    window: u64,
    fields: u64,
}

impl<'a> Cursor<'a> {
    fn new(element: &'a [u8]) -> Self {
        Cursor {
            element,
            place: 0,
            window: NO_WINDOW,
            fields: 0,
        }
    }

    fn end(&self) -> u64 {
        self.element.len() as u64 * 8
    }

    fn left_in_window(&self) -> u64 {
        self.window - self.place
    }

    fn refuse<T>(&self, number: u8, place: u64) -> Result<T, Refusal> {
        Err(Refusal {
            number,
            place,
            fields: self.fields,
        })
    }

    fn field(&mut self, width: u64) -> Result<u64, Refusal> {
        if self.place + width > self.window {
            return self.refuse(10, self.place);
        }
        if self.place + width > self.end() {
            return self.refuse(3, self.place);
        }
        let value = bits::number(self.element, self.place, width);
        self.place += width;
        self.fields += 1;
        Ok(value)
    }

    /// A field whose value is refused by `number` unless it is fine.
    fn checked(
        &mut self,
        width: u64,
        number: u8,
        fine: impl Fn(u64) -> bool,
    ) -> Result<u64, Refusal> {
        let place = self.place;
        let value = self.field(width)?;
        if fine(value) {
            Ok(value)
        } else {
            self.refuse(number, place)
        }
    }

    /// Passes over fill, payload or other data.
    fn pass(&mut self, width: u64) -> Result<(), Refusal> {
        if self.place + width > self.end() {
            return self.refuse(3, self.place);
        }
        self.place += width;
        Ok(())
    }

    fn variable(&mut self) -> Result<u64, Refusal> {
        let more = self.field(2)?;
        let mut value = 0;
        for _ in 0..=more {
            value = value << 8 | self.field(8)?;
        }
        Ok(value)
    }
}

fn configuration(cursor: &mut Cursor, map: &mut Map) -> Result<Record, Refusal> {
    let first = cursor.place;
    let mut record = Record::default();
    head(cursor, &mut record)?;
    let mut count = 0;
    for program in 0..=record.num_program as usize {
        let most = STREAMS - count;
        let last = cursor.checked(3, 7, |last| (last as usize) < most)?;
        record.num_layer[program] = last;
        for _ in 0..=last {
            record.streams[count] = stream(cursor, record.version, &record.streams[..count])?;
            count += 1;
        }
    }
    tail(cursor, &mut record)?;
    map.add(Kind::Configuration, 0, first, cursor.place);
    Ok(record)
}

fn head(cursor: &mut Cursor, record: &mut Record) -> Result<(), Refusal> {
    record.version = cursor.field(1)?;
    if record.version == 1 {
        record.version_a = cursor.checked(1, 5, |a| a == 0)?;
        record.tara = cursor.variable()?;
    }
    record.same_framing = cursor.checked(1, 6, |same| same == 1)?;
    record.num_sub_frames = cursor.field(6)?;
    record.num_program = cursor.field(4)?;
    Ok(())
}

fn tail(cursor: &mut Cursor, record: &mut Record) -> Result<(), Refusal> {
    record.other_present = cursor.field(1)?;
    if record.other_present == 1 {
        record.other_bits = match record.version {
            0 => groups(cursor)?,
            _ => cursor.variable()?,
        };
    }
    record.crc_present = cursor.field(1)?;
    if record.crc_present == 1 {
        record.crc = cursor.field(8)?;
    }
    Ok(())
}

fn groups(cursor: &mut Cursor) -> Result<u64, Refusal> {
    let mut value = 0;
    for group in 1..=4 {
        let more = cursor.checked(1, 14, |more| more == 0 || group < 4)?;
        value = value << 8 | cursor.field(8)?;
        if more == 0 {
            break;
        }
    }
    Ok(value)
}

fn stream(cursor: &mut Cursor, version: u64, before: &[Stream]) -> Result<Stream, Refusal> {
    let audio = match before.last() {
        Some(last) if cursor.field(1)? == 1 => last.audio,
        _ if version == 0 => audio_config(cursor, version)?,
        _ => sized_audio_config(cursor, version)?,
    };
    let frame_length_type = cursor.checked(3, 13, |kind| kind <= 1)?;
    let mut stream = Stream {
        audio,
        frame_length_type,
        ..Stream::default()
    };
    if frame_length_type == 0 {
        stream.buffer_fullness = cursor.field(8)?;
    } else {
        stream.frame_length = cursor.field(9)?;
    }
    Ok(stream)
}

fn sized_audio_config(cursor: &mut Cursor, version: u64) -> Result<AudioConfig, Refusal> {
    let length = cursor.variable()?;
    cursor.window = cursor.place + length;
    let audio = audio_config(cursor, version)?;
    let fill = cursor.left_in_window();
    cursor.window = NO_WINDOW;
    cursor.pass(fill)?;
    Ok(audio)
}

fn audio_config(cursor: &mut Cursor, version: u64) -> Result<AudioConfig, Refusal> {
    let outer = object_type(cursor, |kind| matches!(kind, 1..=5 | 29))?;
    let mut audio = AudioConfig {
        core_type: outer,
        frequency: frequency(cursor)?,
        channels: cursor.checked(4, 11, |channels| matches!(channels, 1..=7))?,
        ..AudioConfig::default()
    };
    if outer == 5 || outer == 29 {
        let extension = frequency(cursor)?;
        audio.form = if outer == 5 {
            Form::Type5(extension)
        } else {
            Form::Type29(extension)
        };
        audio.core_type = object_type(cursor, |kind| matches!(kind, 1..=4))?;
    }
    audio.frame_length_flag = cursor.field(1)?;
    audio.depends_on_core_coder = cursor.checked(1, 12, |depends| depends == 0)?;
    audio.extension_flag = cursor.checked(1, 12, |extension| extension == 0)?;
    if version == 1 && audio.form == Form::None {
        audio.form = form_after_sync(cursor)?;
    }
    Ok(audio)
}

fn object_type(cursor: &mut Cursor, fine: impl Fn(u64) -> bool) -> Result<u64, Refusal> {
    let place = cursor.place;
    let mut kind = cursor.field(5)?;
    if kind == 31 {
        kind = 32 + cursor.field(6)?;
    }
    if fine(kind) {
        Ok(kind)
    } else {
        cursor.refuse(8, place)
    }
}

fn frequency(cursor: &mut Cursor) -> Result<Frequency, Refusal> {
    match cursor.checked(4, 9, |index| index != 13 && index != 14)? {
        15 => Ok(Frequency::Hertz(cursor.checked(24, 9, |hertz| hertz != 0)?)),
        index => Ok(Frequency::Index(index)),
    }
}

fn form_after_sync(cursor: &mut Cursor) -> Result<Form, Refusal> {
    if cursor.left_in_window() < 16 || cursor.field(11)? != 0x2B7 {
        return Ok(Form::None);
    }
    if object_type(cursor, |kind| kind != 22)? != 5 {
        return Ok(Form::None);
    }
    if cursor.field(1)? == 0 {
        return Ok(Form::SbrOff);
    }
    let extension = frequency(cursor)?;
    if cursor.left_in_window() < 12 || cursor.field(11)? != 0x548 {
        return Ok(Form::SbrOn(extension));
    }
    Ok(Form::SbrOnPs(extension, cursor.field(1)?))
}

fn sub_frame(cursor: &mut Cursor, map: &mut Map, streams: &[Stream]) -> Result<(), Refusal> {
    let first = cursor.place;
    let mut slots = Vec::with_capacity(streams.len());
    for stream in streams {
        slots.push(match stream.fixed_slot() {
            Some(bytes) => bytes,
            None => slot_length(cursor)?,
        });
    }
    map.add(Kind::Lengths, 0, first, cursor.place);
    for (stream, bytes) in slots.into_iter().enumerate() {
        let first = cursor.place;
        cursor.pass(8 * bytes)?;
        map.add(Kind::Payload, stream, first, cursor.place);
    }
    Ok(())
}

fn slot_length(cursor: &mut Cursor) -> Result<u64, Refusal> {
    let mut length = 0;
    loop {
        let byte = cursor.field(8)?;
        length += byte;
        if byte != 255 {
            return Ok(length);
        }
    }
}

fn end(cursor: &mut Cursor, map: &mut Map, record: &Record) -> Result<(), Refusal> {
    if record.other_present == 1 {
        let first = cursor.place;
        cursor.pass(record.other_bits)?;
        map.add(Kind::OtherData, 0, first, cursor.place);
    }
    let first = cursor.place;
    cursor.place = bits::bytes_for(first) * 8;
    map.add(Kind::Alignment, 0, first, cursor.place);
    if cursor.place < cursor.end() {
        return cursor.refuse(15, cursor.place);
    }
    Ok(())
}
