//! C-11 of document 02: two output channels where PS is 1 over channel configuration 1.

mod common;

use common::*;
use second::cases::{framed, two_by_ps};
use second::rows::rows;
use second::summary::summary;
use second::write::{write, Order};

/// Type 5 or 29 in front, in version 0 and in version 1.
fn in_front(outer: u64) -> [Draft; 2] {
    let audio = layered(outer);
    [Draft::version0(&audio), Draft::version1(25, &audio)]
}

fn sbr_alone() -> Draft {
    Draft::version1(37, &concat(&[&CORE, &SBR]))
}

/// A flag behind 0x548, as where 01 has ascLen 49.
fn ps_flag(flag: u64) -> Draft {
    Draft::version1(49, &concat(&[&CORE, &SBR, &PS])).with("ps flag", flag)
}

/// SBR, PS and output channels of the one stream.
fn figures(draft: &Draft) -> (i8, i8, u64) {
    let row = &rows(&accept(draft).held)[0];
    (row.sbr, row.ps, row.output_channels)
}

#[test]
fn type_29_over_one() {
    for draft in in_front(29) {
        assert_eq!(figures(&draft), (1, 1, 2));
    }
}

#[test]
fn a_ps_flag_over_one() {
    assert_eq!(figures(&ps_flag(1)), (1, 1, 2));
    assert_eq!(figures(&ps_flag(0)), (1, 0, 1));
    let filled = ps_flag(1)
        .with("asc len", 52)
        .after("ps flag", &[("fill", 0, 3)]);
    assert_eq!(figures(&filled), (1, 1, 2));
}

#[test]
fn type_5_over_one() {
    for draft in in_front(5) {
        assert_eq!(figures(&draft), (1, -1, 1));
    }
}

#[test]
fn an_sbr_flag_over_one() {
    assert_eq!(figures(&sbr_alone()), (1, -1, 1));
    assert_eq!(figures(&ps_flag(1).with("ps sync", 0x549)), (1, -1, 1));
    let off = Draft::version1(33, &concat(&[&CORE, &SBR[..3]])).with("sbr flag", 0);
    assert_eq!(figures(&off), (0, -1, 1));
}

#[test]
fn nothing_signalled_over_one() {
    for draft in [Draft::version0(&CORE), Draft::version1(16, &CORE)] {
        assert_eq!(figures(&draft), (-1, -1, 1));
    }
}

#[test]
fn ps_over_other_configurations() {
    for (configuration, channels) in [(2, 2), (3, 3), (4, 4), (5, 5), (6, 6), (7, 8)] {
        let [version0, version1] = in_front(29);
        for draft in [version0, version1, ps_flag(1)] {
            let draft = draft.with("channels", configuration);
            assert_eq!(figures(&draft), (1, 1, channels));
        }
        let draft = ps_flag(0).with("channels", configuration);
        assert_eq!(figures(&draft), (1, 0, channels));
    }
}

#[test]
fn the_other_figures_of_the_row() {
    let [version0, version1] = in_front(29);
    for draft in [version0, version1, ps_flag(1)] {
        let row = &rows(&accept(&draft).held)[0];
        assert_eq!((row.program, row.layer, row.stream), (0, 0, 0));
        assert_eq!(
            (row.core_type, row.core_hertz, row.output_hertz),
            (2, 24000, 48000)
        );
    }
}

type Numbers = (u8, u64, u64, u64);

/// The numbers of all items, and the fields.
fn map_and_count(draft: &Draft) -> (Vec<Numbers>, u64) {
    let reading = accept(draft);
    let numbers = reading
        .items
        .iter()
        .map(|item| (item.kind as u8, item.stream, item.first, item.width));
    (numbers.collect(), reading.fields)
}

/// An element of one empty slot: the width of its configuration tells the rest.
fn expected_map(configuration: u64, fields: u64) -> (Vec<Numbers>, u64) {
    let lengths = 1 + configuration;
    let end = lengths + 8;
    let numbers = vec![
        (1, 0, 0, 1),
        (2, 0, 1, configuration),
        (3, 0, lengths, 8),
        (4, 0, end, 0),
        (6, 0, end, (8 - end % 8) % 8),
    ];
    (numbers, fields)
}

#[test]
fn the_map_and_the_count_stay() {
    let [version0, version1] = in_front(29);
    for configuration in 1..=7 {
        for (draft, width, fields) in [
            (&version0, 15 + 25 + 11 + 2, 6 + 8 + 5),
            (&version1, 36 + 25 + 11 + 2, 11 + 8 + 5),
            (&ps_flag(1), 36 + 49 + 11 + 2, 11 + 12 + 5),
            (&ps_flag(0), 36 + 49 + 11 + 2, 11 + 12 + 5),
        ] {
            let draft = draft.clone().with("channels", configuration);
            assert_eq!(map_and_count(&draft), expected_map(width, fields));
        }
    }
}

#[test]
fn the_record_keeps_configuration_one() {
    let [version0, version1] = in_front(29);
    for draft in [version0, version1, ps_flag(1)] {
        let record = accept(&draft).held;
        assert_eq!(record.streams[0].audio.channels, 1);
        let order = Order {
            record: &record,
            send: true,
            lengths: &[0],
            payload: &[],
            other: &[],
        };
        let element = draft.bytes();
        let mut output = vec![0; element.len()];
        assert_eq!(write(&order, &mut output), Ok(element.len()));
        assert_eq!(output, element);
    }
}

/// Type 29, the same in the next layer, and type 5 in another program.
#[test]
fn every_stream_by_its_own_ps() {
    let slot = [("slot type", 0, 3), ("slot value", 0, 8)];
    let draft = Draft::version0(&layered(29))
        .with("programs", 1)
        .with("layers", 1)
        .until("other")
        .add(&[("same config", 1, 1)])
        .add(&slot)
        .add(&[("layers", 0, 3), ("same config", 0, 1)])
        .add(&layered(5))
        .add(&slot)
        .add(&[("other", 0, 1), ("crc", 0, 1), ("lengths", 0, 24)]);
    let rows: Vec<_> = rows(&accept(&draft).held)
        .iter()
        .map(|row| (row.program, row.layer, row.ps, row.output_channels))
        .collect();
    assert_eq!(rows, [(0, 0, 1, 2), (0, 1, 1, 2), (1, 0, -1, 1)]);
}

#[test]
fn the_summary_of_ps_over_one() {
    let expected = "\
element  program  layer  stream  core type    core Hz  output Hz  SBR            PS             output channels
      0        0      0       0  2 AAC LC       24000      48000  yes            yes                          2
      1        0      0       0  2 AAC LC       24000      48000  yes            no                           1
      2        0      0       0  2 AAC LC       24000      48000  yes            yes                          2
";
    let elements = [
        ps_flag(1).bytes(),
        ps_flag(0).bytes(),
        ps_flag(1).bytes(),
        vec![0x80, 0x00],
        ps_flag(1).bytes(),
    ];
    let capture: Vec<u8> = elements
        .iter()
        .flat_map(|element| framed(element))
        .collect();
    assert_eq!(summary(&capture, false), expected);
    assert_eq!(two_by_ps(&capture), 2);
}
