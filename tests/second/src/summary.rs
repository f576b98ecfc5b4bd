//! The summary: the rows of every new configuration, and the refusals.

use crate::capture::{Capture, Step};
use crate::refusal::Refusal;
use crate::rows::{rows, Row};

/// `longer` tells that the input went on after these bytes.
pub fn summary(bytes: &[u8], longer: bool) -> String {
    let mut text = line(&[
        "element",
        "program",
        "layer",
        "stream",
        "core type",
        "core Hz",
        "output Hz",
        "SBR",
        "PS",
        "output channels",
    ]);
    let mut none_held_told = false;
    let mut frames = 0;
    for step in Capture::new(bytes) {
        frames += 1;
        if !none_held_told
            && step
                .outcome
                .as_ref()
                .is_err_and(|refusal| refusal.number == 4)
        {
            none_held_told = true;
            text += "no configuration yet: elements cannot be read until one is sent\n";
        }
        text += &step_lines(&step);
    }
    if frames == 0 {
        text += "no frame in this capture (refusal 20)\n";
    }
    if longer {
        text += "the capture is longer than 65536 bytes: only the first 65536 were read\n";
    }
    text
}

fn step_lines(step: &Step) -> String {
    match &step.outcome {
        Err(refusal) => refusal_line(step.number, refusal),
        Ok(reading) if step.changed => rows(&reading.held)
            .iter()
            .map(|row| row_line(step.number, row))
            .collect(),
        Ok(_) => String::new(),
    }
}

fn refusal_line(element: usize, refusal: &Refusal) -> String {
    let Refusal {
        number,
        place,
        fields,
    } = refusal;
    let words = refusal.words();
    format!(
        "{element:>7}  refused {number:>2}  at bit {place:>5}  fields read {fields:>5}  {words}\n"
    )
}

fn row_line(element: usize, row: &Row) -> String {
    line(&[
        &element.to_string(),
        &row.program.to_string(),
        &row.layer.to_string(),
        &row.stream.to_string(),
        core_name(row.core_type),
        &row.core_hertz.to_string(),
        &row.output_hertz.to_string(),
        flag_word(row.sbr),
        flag_word(row.ps),
        &row.output_channels.to_string(),
    ])
}

fn line(cells: &[&str; 10]) -> String {
    let [element, program, layer, stream, core, core_hertz, output_hertz, sbr, ps, channels] =
        cells;
    format!(
        "{element:>7}  {program:>7}  {layer:>5}  {stream:>6}  {core:<10}  {core_hertz:>8}  \
         {output_hertz:>9}  {sbr:<13}  {ps:<13}  {channels:>15}\n"
    )
}

fn core_name(core_type: u64) -> &'static str {
    match core_type {
        1 => "1 AAC Main",
        2 => "2 AAC LC",
        3 => "3 AAC SSR",
        _ => "4 AAC LTP",
    }
}

fn flag_word(flag: i8) -> &'static str {
    match flag {
        1 => "yes",
        0 => "no",
        _ => "not signalled",
    }
}
