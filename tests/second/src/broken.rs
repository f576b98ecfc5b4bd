//! Records that 16 refuses, in each of its ways.

use crate::random::Random;
use crate::record::{Form, Frequency, Record, Stream, LAYERS, PROGRAMS, STREAMS};

pub type Way = fn(&mut Record, &mut Random);

/// A value wider than its field.
const WIDE: [Way; 22] = [
    |record, random| record.version = wide(1, random),
    |record, random| record.version_a = wide(1, random),
    |record, random| record.same_framing = wide(1, random),
    |record, random| record.num_sub_frames = wide(6, random),
    |record, random| record.num_program = wide(4, random),
    |record, random| {
        let program = random.below(record.num_program + 1) as usize;
        record.num_layer[program] = wide(3, random);
    },
    |record, random| sent(record, random).audio.core_type = wide(5, random),
    |record, random| sent(record, random).audio.frequency = Frequency::Index(wide(4, random)),
    |record, random| sent(record, random).audio.frequency = Frequency::Hertz(wide(24, random)),
    |record, random| extend(record, Frequency::Index(wide(4, random)), random),
    |record, random| extend(record, Frequency::Hertz(wide(24, random)), random),
    |record, random| sent(record, random).audio.channels = wide(4, random),
    |record, random| sent(record, random).audio.frame_length_flag = wide(1, random),
    |record, random| sent(record, random).audio.depends_on_core_coder = wide(1, random),
    |record, random| sent(record, random).audio.extension_flag = wide(1, random),
    |record, random| {
        record.version = 1;
        let ps = wide(1, random);
        sent(record, random).audio.form = Form::SbrOnPs(Frequency::Index(3), ps);
    },
    |record, random| sent(record, random).frame_length_type = wide(3, random),
    |record, random| {
        let stream = sent(record, random);
        (stream.frame_length_type, stream.frame_length) = (0, 0);
        stream.buffer_fullness = wide(8, random);
    },
    |record, random| {
        let stream = sent(record, random);
        (stream.frame_length_type, stream.buffer_fullness) = (1, 0);
        stream.frame_length = wide(9, random);
    },
    |record, random| record.other_present = wide(1, random),
    |record, random| record.crc_present = wide(1, random),
    |record, random| (record.crc_present, record.crc) = (1, wide(8, random)),
];

/// A value that 5 to 9 or 11 to 13 refuse, a core type other than 1 to 4, an
/// index of 15, a form after 0x2B7 in version 0.
const NOT_CARRIED: [Way; 14] = [
    |record, _| record.version_a = 1,
    |record, _| record.same_framing = 0,
    |record, random| {
        record.num_program = random.between(2, 15);
        let programs = record.num_program as usize + 1;
        record.num_layer[..programs].fill(LAYERS as u64 - 1);
    },
    |record, random| {
        // One stream over 16.
        record.num_program = 2;
        record.num_layer = Default::default();
        let first = random.below(8);
        record.num_layer[..3].copy_from_slice(&[7, first, 7 - first]);
    },
    |record, random| {
        sent(record, random).audio.core_type = random.pick(&[0, 5, 6, 17, 22, 29, 30, 31, 32])
    },
    |record, random| sent(record, random).audio.frequency = refused_frequency(random),
    |record, random| extend(record, refused_frequency(random), random),
    |record, random| sent(record, random).audio.frequency = Frequency::Index(15),
    |record, random| extend(record, Frequency::Index(15), random),
    |record, random| sent(record, random).audio.channels = random.pick(&[0, 8, 9, 11, 12, 14, 15]),
    |record, random| sent(record, random).audio.depends_on_core_coder = 1,
    |record, random| sent(record, random).audio.extension_flag = 1,
    |record, random| sent(record, random).frame_length_type = random.between(2, 7),
    |record, random| {
        (record.version, record.tara) = (0, 0);
        let forms = [
            Form::SbrOff,
            Form::SbrOn(Frequency::Index(3)),
            Form::SbrOnPs(Frequency::Index(3), 1),
        ];
        sent(record, random).audio.form = random.pick(&forms);
    },
];

/// A value other than 0 where none is sent; at last, nothing but zeros.
const NOT_SENT: [Way; 20] = [
    |record, random| (record.version, record.tara) = (0, any(random)),
    |record, random| {
        if record.num_program < PROGRAMS as u64 - 1 {
            let program = random.between(record.num_program + 1, PROGRAMS as u64 - 1);
            record.num_layer[program as usize] = random.pick(&[1, 7, 8, 255]);
        }
    },
    |record, random| {
        let stream = sent(record, random);
        (stream.frame_length_type, stream.buffer_fullness) = (0, 0);
        stream.frame_length = any(random);
    },
    |record, random| {
        let stream = sent(record, random);
        (stream.frame_length_type, stream.frame_length) = (1, 0);
        stream.buffer_fullness = any(random);
    },
    |record, random| (record.other_present, record.other_bits) = (0, any(random)),
    |record, random| (record.crc_present, record.crc) = (0, any(random)),
    |record, random| unsent(record, random).audio.core_type = random.between(1, 4),
    |record, random| unsent(record, random).audio.frequency = Frequency::Index(any(random)),
    |record, random| unsent(record, random).audio.frequency = Frequency::Hertz(0),
    |record, random| unsent(record, random).audio.frequency = Frequency::Hertz(any(random)),
    |record, random| unsent(record, random).audio.channels = random.between(1, 7),
    |record, random| unsent(record, random).audio.frame_length_flag = 1,
    |record, random| unsent(record, random).audio.depends_on_core_coder = 1,
    |record, random| unsent(record, random).audio.extension_flag = 1,
    |record, random| {
        let frequency = random.pick(&[Frequency::Index(0), Frequency::Hertz(0)]);
        let forms = [
            Form::Type5(frequency),
            Form::Type29(frequency),
            Form::SbrOff,
            Form::SbrOn(frequency),
            Form::SbrOnPs(frequency, 0),
        ];
        unsent(record, random).audio.form = random.pick(&forms);
    },
    |record, random| unsent(record, random).frame_length_type = 1,
    |record, random| unsent(record, random).buffer_fullness = any(random),
    |record, random| unsent(record, random).frame_length = any(random),
    |record, random| {
        // A whole stream more than is sent.
        let first = record.streams[0];
        *unsent(record, random) = first;
    },
    |record, _| *record = Record::default(),
];

pub fn ways() -> Vec<Way> {
    [&WIDE[..], &NOT_CARRIED, &NOT_SENT].concat()
}

/// A value one bit or more too wide, often fine in its lower bits.
fn wide(width: u32, random: &mut Random) -> u64 {
    let (edge, low) = (1 << width, random.below(1 << width));
    let bit = random.between(u64::from(width), 31);
    random.pick(&[edge, edge + low, 1 << bit | low, 0xFFFF_FFFF])
}

fn any(random: &mut Random) -> u64 {
    let any = random.between(1, 0xFFFF_FFFF);
    random.pick(&[1, 1, 3, 256, 0xFFFF_FFFF, any])
}

fn refused_frequency(random: &mut Random) -> Frequency {
    random.pick(&[
        Frequency::Index(13),
        Frequency::Index(14),
        Frequency::Hertz(0),
    ])
}

fn sent<'a>(record: &'a mut Record, random: &mut Random) -> &'a mut Stream {
    let stream = random.below(record.stream_count() as u64) as usize;
    &mut record.streams[stream]
}

/// A stream past those that are sent; the last one where there is none.
fn unsent<'a>(record: &'a mut Record, random: &mut Random) -> &'a mut Stream {
    let first = record.stream_count().min(STREAMS - 1) as u64;
    let stream = random.between(first, STREAMS as u64 - 1) as usize;
    &mut record.streams[stream]
}

fn extend(record: &mut Record, extension: Frequency, random: &mut Random) {
    let mut forms = vec![Form::Type5(extension), Form::Type29(extension)];
    if record.version == 1 {
        forms.extend([Form::SbrOn(extension), Form::SbrOnPs(extension, 1)]);
    }
    sent(record, random).audio.form = random.pick(&forms);
}
