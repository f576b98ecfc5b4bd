//! Writes elements in the one form document 01 gives the writer.

use crate::bits::{bytes_for, Pen};
use crate::read::LONGEST_ELEMENT;
use crate::record::{AudioConfig, Form, Frequency, Record, Stream};
use crate::refusal::Refusal;

/// What an element is to carry: slot lengths and payload in payload order,
/// other data packed from the top bit.
#[derive(Clone, Copy)]
pub struct Order<'a> {
    pub record: &'a Record,
    pub send: bool,
    pub lengths: &'a [u64],
    pub payload: &'a [u8],
    pub other: &'a [u8],
}

/// Writes the element and answers its bytes; what follows stays.
pub fn write(order: &Order, output: &mut [u8]) -> Result<usize, Refusal> {
    if !order.record.is_sendable() {
        return Err(Refusal::plain(16));
    }
    if !fits_record(order) {
        return Err(Refusal::plain(17));
    }
    let mut pen = Pen::default();
    put_header(&mut pen, order);
    let size = bytes_for(pen.bits() + body_bits(order)) as usize;
    if size > LONGEST_ELEMENT {
        return Err(Refusal::plain(18));
    }
    if size > output.len() {
        return Err(Refusal::plain(19));
    }
    put_body(&mut pen, order);
    output[..size].copy_from_slice(&pen.into_bytes());
    Ok(size)
}

fn fits_record(order: &Order) -> bool {
    let streams = order.record.sent_streams();
    let fixed =
        |(stream, length): (&Stream, &u64)| stream.fixed_slot().is_none_or(|s| s == *length);
    let payload: u128 = order.lengths.iter().map(|length| u128::from(*length)).sum();
    order.lengths.len() == order.record.slot_count()
        && streams.iter().cycle().zip(order.lengths).all(fixed)
        && payload == order.payload.len() as u128
        && bytes_for(order.record.other_bits) == order.other.len() as u64
}

/// Only for lengths that fit the payload, which keeps the sums small.
fn body_bits(order: &Order) -> u64 {
    let streams = order.record.sent_streams().iter().cycle();
    let lengths: u64 = streams
        .zip(order.lengths)
        .map(|(s, length)| 8 * length_bytes(s, *length))
        .sum();
    lengths + 8 * order.payload.len() as u64 + order.record.other_bits
}

fn length_bytes(stream: &Stream, length: u64) -> u64 {
    if stream.fixed_slot().is_some() {
        0
    } else {
        length / 255 + 1
    }
}

fn put_header(pen: &mut Pen, order: &Order) {
    pen.put(u64::from(!order.send), 1);
    if order.send {
        put_configuration(pen, order.record);
    }
}

fn put_configuration(pen: &mut Pen, record: &Record) {
    pen.put(record.version, 1);
    if record.version == 1 {
        pen.put(record.version_a, 1);
        put_variable(pen, record.tara);
    }
    pen.put(record.same_framing, 1);
    pen.put(record.num_sub_frames, 6);
    pen.put(record.num_program, 4);
    let mut place = 0;
    for last in &record.num_layer[..=record.num_program as usize] {
        pen.put(*last, 3);
        for _ in 0..=*last {
            put_stream(pen, record, place);
            place += 1;
        }
    }
    put_configuration_end(pen, record);
}

fn put_configuration_end(pen: &mut Pen, record: &Record) {
    pen.put(record.other_present, 1);
    if record.other_present == 1 {
        match record.version {
            0 => put_groups(pen, record.other_bits),
            _ => put_variable(pen, record.other_bits),
        }
    }
    pen.put(record.crc_present, 1);
    if record.crc_present == 1 {
        pen.put(record.crc, 8);
    }
}

fn put_stream(pen: &mut Pen, record: &Record, place: usize) {
    let stream = &record.streams[place];
    let same = place > 0 && stream.audio == record.streams[place - 1].audio;
    if place > 0 {
        pen.put(u64::from(same), 1);
    }
    if !same {
        put_audio_config(pen, record.version, &stream.audio);
    }
    pen.put(stream.frame_length_type, 3);
    match stream.frame_length_type {
        0 => pen.put(stream.buffer_fullness, 8),
        _ => pen.put(stream.frame_length, 9),
    }
}

fn put_audio_config(pen: &mut Pen, version: u64, audio: &AudioConfig) {
    let mut config = Pen::default();
    put_core(&mut config, audio);
    put_after_core(&mut config, audio.form);
    if version == 1 {
        put_variable(pen, config.bits());
    }
    pen.append(&config);
}

fn put_core(pen: &mut Pen, audio: &AudioConfig) {
    let extension = match audio.form {
        Form::Type5(extension) => Some((5, extension)),
        Form::Type29(extension) => Some((29, extension)),
        _ => None,
    };
    pen.put(extension.map_or(audio.core_type, |(kind, _)| kind), 5);
    put_frequency(pen, audio.frequency);
    pen.put(audio.channels, 4);
    if let Some((_, extension)) = extension {
        put_frequency(pen, extension);
        pen.put(audio.core_type, 5);
    }
    pen.put(audio.frame_length_flag, 1);
    pen.put(audio.depends_on_core_coder, 1);
    pen.put(audio.extension_flag, 1);
}

fn put_after_core(pen: &mut Pen, form: Form) {
    let (extension, ps) = match form {
        Form::None | Form::Type5(_) | Form::Type29(_) => return,
        Form::SbrOff => (None, None),
        Form::SbrOn(extension) => (Some(extension), None),
        Form::SbrOnPs(extension, ps) => (Some(extension), Some(ps)),
    };
    pen.put(0x2B7, 11);
    pen.put(5, 5);
    pen.put(u64::from(extension.is_some()), 1);
    if let Some(extension) = extension {
        put_frequency(pen, extension);
    }
    if let Some(ps) = ps {
        pen.put(0x548, 11);
        pen.put(ps, 1);
    }
}

fn put_frequency(pen: &mut Pen, frequency: Frequency) {
    match frequency {
        Frequency::Index(index) => pen.put(index, 4),
        Frequency::Hertz(hertz) => {
            pen.put(15, 4);
            pen.put(hertz, 24);
        }
    }
}

/// The bytes a value needs, at least one.
fn value_bytes(value: u64) -> u64 {
    bytes_for(u64::from(u64::BITS - value.leading_zeros())).max(1)
}

fn put_variable(pen: &mut Pen, value: u64) {
    let bytes = value_bytes(value);
    pen.put(bytes - 1, 2);
    pen.put(value, 8 * bytes);
}

fn put_groups(pen: &mut Pen, value: u64) {
    for after in (0..value_bytes(value)).rev() {
        pen.put(u64::from(after > 0), 1);
        pen.put(value >> (8 * after) & 0xFF, 8);
    }
}

fn put_body(pen: &mut Pen, order: &Order) {
    let streams = order.record.sent_streams();
    let mut payload = order.payload;
    for lengths in order.lengths.chunks(streams.len()) {
        for (stream, length) in streams.iter().zip(lengths) {
            put_slot_length(pen, stream, *length);
        }
        let (now, later) = payload.split_at(lengths.iter().sum::<u64>() as usize);
        pen.copy(now, 8 * now.len() as u64);
        payload = later;
    }
    pen.copy(order.other, order.record.other_bits);
}

fn put_slot_length(pen: &mut Pen, stream: &Stream, length: u64) {
    if stream.fixed_slot().is_some() {
        return;
    }
    for _ in 0..length / 255 {
        pen.put(255, 8);
    }
    pen.put(length % 255, 8);
}
