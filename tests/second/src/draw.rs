//! Draws records and slot lengths over the whole range of what is carried.

use crate::random::Random;
use crate::record::{AudioConfig, Form, Frequency, Record, Stream, LAYERS, PROGRAMS, STREAMS};

/// The values next to a byte more in a variable value.
const VARIABLE_EDGES: [u64; 9] = [
    0,
    1,
    255,
    256,
    0xFFFF,
    0x1_0000,
    0xFF_FFFF,
    0x100_0000,
    0xFFFF_FFFF,
];
const SLOT_EDGES: [u64; 8] = [0, 1, 20, 254, 255, 256, 510, 511];
/// Channel configurations; 1 more often, since PS changes what it gives.
const CHANNELS: [u64; 10] = [1, 1, 1, 1, 2, 3, 4, 5, 6, 7];

pub fn record(random: &mut Random) -> Record {
    let mut record = Record {
        version: random.below(2),
        same_framing: 1,
        ..Record::default()
    };
    if record.version == 1 {
        record.tara = variable(random);
    }
    record.num_sub_frames = sub_frames(random);
    divide(&mut record, random);
    let slots = random.pick(&[Slots::Variable, Slots::Variable, Slots::Fixed, Slots::Mixed]);
    for place in 0..record.stream_count() {
        let before = place.checked_sub(1).map(|last| record.streams[last].audio);
        record.streams[place] = stream(record.version, before, slots, random);
    }
    record.other_present = random.below(2);
    if record.other_present == 1 {
        record.other_bits = other_bits(random);
    }
    record.crc_present = random.below(2);
    if record.crc_present == 1 {
        record.crc = random.below(256);
    }
    record
}

fn variable(random: &mut Random) -> u64 {
    if random.once_in(3) {
        random.below(1 << 32)
    } else {
        random.pick(&VARIABLE_EDGES)
    }
}

fn sub_frames(random: &mut Random) -> u64 {
    match random.below(8) {
        0..=3 => 0,
        4 | 5 => random.between(1, 4),
        6 => random.below(64),
        _ => 63,
    }
}

/// Divides 1 to 16 streams into programs of 1 to 8 layers.
fn divide(record: &mut Record, random: &mut Random) {
    let any = random.between(1, 16);
    let mut left = random.pick(&[1, 1, 2, 3, any, any, 16]);
    let widest = random.pick(&[1, 2, LAYERS as u64]);
    let mut programs = 0;
    while left > 0 {
        let layers = random.between(1, widest.min(left));
        record.num_layer[programs] = layers - 1;
        programs += 1;
        left -= layers;
    }
    record.num_program = programs as u64 - 1;
    debug_assert!(programs <= PROGRAMS && record.stream_count() <= STREAMS);
}

#[derive(Clone, Copy)]
enum Slots {
    Variable,
    Fixed,
    Mixed,
}

fn stream(version: u64, before: Option<AudioConfig>, slots: Slots, random: &mut Random) -> Stream {
    let audio = match before {
        Some(audio) if random.once_in(2) => audio,
        _ => audio_config(version, random),
    };
    let frame_length_type = match slots {
        Slots::Variable => 0,
        Slots::Fixed => 1,
        Slots::Mixed => random.below(2),
    };
    let mut stream = Stream {
        audio,
        frame_length_type,
        ..Stream::default()
    };
    if frame_length_type == 0 {
        stream.buffer_fullness = random.below(256);
    } else {
        let (low, any) = (random.below(40), random.below(512));
        stream.frame_length = random.pick(&[0, 0, 1, 235, 236, 511, low, any]);
    }
    stream
}

fn audio_config(version: u64, random: &mut Random) -> AudioConfig {
    AudioConfig {
        core_type: random.between(1, 4),
        frequency: frequency(random),
        channels: random.pick(&CHANNELS),
        form: form(version, random),
        frame_length_flag: random.below(2),
        ..AudioConfig::default()
    }
}

fn frequency(random: &mut Random) -> Frequency {
    match random.below(6) {
        0 => Frequency::Hertz(random.pick(&[1, 7350, 48000, 0xFF_FFFF])),
        1 => Frequency::Hertz(random.between(1, 0xFF_FFFF)),
        _ => Frequency::Index(random.below(13)),
    }
}

/// A PS flag twice as often as another form of version 1: it is 0 or 1.
fn form(version: u64, random: &mut Random) -> Form {
    let forms = if version == 0 { 3 } else { 7 };
    match random.below(forms) {
        0 => Form::None,
        1 => Form::Type5(frequency(random)),
        2 => Form::Type29(frequency(random)),
        3 => Form::SbrOff,
        4 => Form::SbrOn(frequency(random)),
        _ => Form::SbrOnPs(frequency(random), random.below(2)),
    }
}

fn other_bits(random: &mut Random) -> u64 {
    match random.below(6) {
        0 => 0,
        1 => random.between(1, 17),
        2 => random.between(253, 259),
        3 => random.below(6000),
        _ => random.below(300),
    }
}

/// Slot lengths in payload order for all subframes.
pub fn lengths(record: &Record, random: &mut Random) -> Vec<u64> {
    let longest = random.pick(&[0, 1, 3, 12, 300]);
    let edges = random.once_in(3);
    let slots = record
        .sent_streams()
        .iter()
        .cycle()
        .take(record.slot_count());
    slots
        .map(|stream| {
            stream
                .fixed_slot()
                .unwrap_or_else(|| slot(edges, longest, random))
        })
        .collect()
}

fn slot(edges: bool, longest: u64, random: &mut Random) -> u64 {
    if edges {
        random.pick(&SLOT_EDGES)
    } else {
        random.below(longest + 1)
    }
}
