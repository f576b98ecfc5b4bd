//! The rows of a record, found through the table of programs and layers.

use crate::record::{AudioConfig, Form, Frequency, Record, LAYERS, PROGRAMS, STREAMS};

/// Stands in the table where there is no such program and layer.
pub const NO_STREAM: u8 = 255;

pub type Table = [[u8; LAYERS]; PROGRAMS];

/// SBR and PS are 1 or 0 as signalled, or -1 where no flag was sent.
#[derive(Clone, Debug, PartialEq, Eq)]
pub struct Row {
    pub program: usize,
    pub layer: usize,
    pub stream: usize,
    pub core_type: u64,
    pub core_hertz: u64,
    pub output_hertz: u64,
    pub sbr: i8,
    pub ps: i8,
    pub output_channels: u64,
}

pub fn table(record: &Record) -> Table {
    let mut table = [[NO_STREAM; LAYERS]; PROGRAMS];
    let programs = record.num_program as usize + 1;
    let mut stream = 0;
    for (layers, last) in table.iter_mut().zip(record.num_layer).take(programs) {
        for number in layers.iter_mut().take(last as usize + 1) {
            if usize::from(stream) < STREAMS {
                *number = stream;
            }
            stream += 1;
        }
    }
    table
}

/// All rows in stream order; none for a record that cannot be sent.
pub fn rows(record: &Record) -> Vec<Row> {
    if !record.is_sendable() {
        return Vec::new();
    }
    rows_of_any(record)
}

/// As `rows`, also for a record that cannot be sent: what its own table has.
pub fn rows_of_any(record: &Record) -> Vec<Row> {
    let table = table(record);
    let pairs = (0..PROGRAMS).flat_map(|program| (0..LAYERS).map(move |layer| (program, layer)));
    pairs
        .filter_map(|(program, layer)| row(record, &table, program, layer))
        .collect()
}

/// How many rows have two channels because PS is 1 over channel configuration 1.
pub fn two_by_ps(record: &Record) -> usize {
    let rows = rows_of_any(record);
    let over_one = |row: &&Row| row.ps == 1 && record.streams[row.stream].audio.channels == 1;
    rows.iter().filter(over_one).count()
}

fn row(record: &Record, table: &Table, program: usize, layer: usize) -> Option<Row> {
    let stream = table[program][layer];
    if stream == NO_STREAM {
        return None;
    }
    let audio = &record.streams[usize::from(stream)].audio;
    let (sbr, ps) = flags(audio.form);
    Some(Row {
        program,
        layer,
        stream: usize::from(stream),
        core_type: audio.core_type,
        core_hertz: hertz(audio.frequency),
        output_hertz: output_hertz(audio),
        sbr,
        ps,
        output_channels: output_channels(audio.channels, ps),
    })
}

fn flags(form: Form) -> (i8, i8) {
    match form {
        Form::None => (-1, -1),
        Form::Type5(_) | Form::SbrOn(_) => (1, -1),
        Form::Type29(_) => (1, 1),
        Form::SbrOff => (0, -1),
        Form::SbrOnPs(_, ps) => (1, i8::from(ps != 0)),
    }
}

fn output_hertz(audio: &AudioConfig) -> u64 {
    match audio.form {
        Form::None | Form::SbrOff => hertz(audio.frequency),
        Form::Type5(extension)
        | Form::Type29(extension)
        | Form::SbrOn(extension)
        | Form::SbrOnPs(extension, _) => hertz(extension),
    }
}

fn hertz(frequency: Frequency) -> u64 {
    frequency.hertz().unwrap_or(0)
}

fn output_channels(configuration: u64, ps: i8) -> u64 {
    match configuration {
        1 if ps == 1 => 2,
        1..=6 => configuration,
        7 => 8,
        _ => 0,
    }
}
