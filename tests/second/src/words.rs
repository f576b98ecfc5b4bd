//! A record as words, in the order of docs/SCRIPT.md: head, ending, layers, streams.

use crate::record::{AudioConfig, Form, Frequency, Record, Stream, PROGRAMS, STREAMS};

const HEAD_WORDS: usize = 6;
const ENDING_WORDS: usize = 4;
pub const STREAM_WORDS: usize = 14;

/// The first word of each part behind the head.
pub const ENDING_AT: usize = HEAD_WORDS;
pub const LAYERS_AT: usize = ENDING_AT + ENDING_WORDS;
pub const STREAMS_AT: usize = LAYERS_AT + PROGRAMS;
pub const WORDS: usize = STREAMS_AT + STREAMS * STREAM_WORDS;

pub fn words(record: &Record) -> Vec<u32> {
    let mut words = Vec::with_capacity(WORDS);
    words.extend(head_words(record));
    words.extend(ending_words(record));
    words.extend(record.num_layer);
    words.extend(record.streams.iter().flat_map(stream_words));
    words.into_iter().map(word).collect()
}

fn word(value: u64) -> u32 {
    u32::try_from(value).expect("a record of 32-bit numbers")
}

fn head_words(record: &Record) -> [u64; HEAD_WORDS] {
    [
        record.version,
        record.version_a,
        record.tara,
        record.same_framing,
        record.num_sub_frames,
        record.num_program,
    ]
}

fn ending_words(record: &Record) -> [u64; ENDING_WORDS] {
    [
        record.other_present,
        record.other_bits,
        record.crc_present,
        record.crc,
    ]
}

fn stream_words(stream: &Stream) -> [u64; STREAM_WORDS] {
    let audio = &stream.audio;
    let (choice, number) = frequency_words(audio.frequency);
    let (form, extension, ps) = match audio.form {
        Form::None => (0, None, 0),
        Form::Type5(extension) => (1, Some(extension), 0),
        Form::Type29(extension) => (2, Some(extension), 0),
        Form::SbrOff => (3, None, 0),
        Form::SbrOn(extension) => (4, Some(extension), 0),
        Form::SbrOnPs(extension, ps) => (5, Some(extension), ps),
    };
    let (extension_choice, extension_number) = extension.map_or((0, 0), frequency_words);
    [
        audio.core_type,
        choice,
        number,
        audio.channels,
        audio.frame_length_flag,
        audio.depends_on_core_coder,
        audio.extension_flag,
        form,
        extension_choice,
        extension_number,
        ps,
        stream.frame_length_type,
        stream.buffer_fullness,
        stream.frame_length,
    ]
}

fn frequency_words(frequency: Frequency) -> (u64, u64) {
    match frequency {
        Frequency::Index(index) => (0, index),
        Frequency::Hertz(hertz) => (1, hertz),
    }
}

/// None where there are too few words, or a choice is none of those there are.
pub fn record(words: &[u32]) -> Option<Record> {
    let mut words = words.iter().map(|word| u64::from(*word));
    let mut record = Record {
        version: words.next()?,
        version_a: words.next()?,
        tara: words.next()?,
        same_framing: words.next()?,
        num_sub_frames: words.next()?,
        num_program: words.next()?,
        other_present: words.next()?,
        other_bits: words.next()?,
        crc_present: words.next()?,
        crc: words.next()?,
        ..Record::default()
    };
    for last in &mut record.num_layer {
        *last = words.next()?;
    }
    for place in &mut record.streams {
        *place = stream(&mut words)?;
    }
    Some(record)
}

fn stream(words: &mut impl Iterator<Item = u64>) -> Option<Stream> {
    Some(Stream {
        audio: AudioConfig {
            core_type: words.next()?,
            frequency: frequency(words)?,
            channels: words.next()?,
            frame_length_flag: words.next()?,
            depends_on_core_coder: words.next()?,
            extension_flag: words.next()?,
            form: form(words)?,
        },
        frame_length_type: words.next()?,
        buffer_fullness: words.next()?,
        frame_length: words.next()?,
    })
}

fn frequency(words: &mut impl Iterator<Item = u64>) -> Option<Frequency> {
    let (choice, number) = (words.next()?, words.next()?);
    match choice {
        0 => Some(Frequency::Index(number)),
        1 => Some(Frequency::Hertz(number)),
        _ => None,
    }
}

fn form(words: &mut impl Iterator<Item = u64>) -> Option<Form> {
    let form = words.next()?;
    let extension = frequency(words)?;
    let ps = words.next()?;
    match form {
        0 => Some(Form::None),
        1 => Some(Form::Type5(extension)),
        2 => Some(Form::Type29(extension)),
        3 => Some(Form::SbrOff),
        4 => Some(Form::SbrOn(extension)),
        5 => Some(Form::SbrOnPs(extension, ps)),
        _ => None,
    }
}
