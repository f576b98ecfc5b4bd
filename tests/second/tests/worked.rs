//! The worked values of document 01, their output channels with C-11 of document 02.

mod common;

use common::*;
use second::listing::listing;
use second::read::{read, Item, Kind, MAP_NUMBERS};
use second::record::{Form, Frequency};
use second::rows::rows;
use second::summary::summary;

#[test]
fn the_listing() {
    let expected = "000000 U 00 00000 00001
000000 C 00 00001 00044
000000 L 00 00045 00008
000000 P 00 00053 00016
000000 A 00 00069 00003
000001 U 00 00000 00001
000001 L 00 00001 00008
000001 P 00 00009 00000
000001 A 00 00009 00007
";
    assert_eq!(listing(&WORKED), expected);
    assert!(expected.lines().all(|line| line.len() + 1 == 24));
}

#[test]
fn the_first_element() {
    let reading = read_alone(first_worked()).unwrap();
    assert_eq!(reading.fields, 17);
    assert!(reading.sent);
    let row = &rows(&reading.held)[0];
    assert_eq!(
        (row.core_type, row.core_hertz, row.output_hertz),
        (2, 48000, 48000)
    );
    assert_eq!((row.sbr, row.ps, row.output_channels), (-1, -1, 2));
    let payload = second::bits::number(first_worked(), 53, 16);
    assert_eq!(payload, 0xABCD);
}

#[test]
fn the_second_element() {
    let held = held_by(first_worked());
    let reading = read(&[0x80, 0x00], Some(&held), MAP_NUMBERS).unwrap();
    assert_eq!(reading.fields, 2);
    assert!(!reading.sent);
    assert_eq!(reading.held, held);
}

#[test]
fn nothing_held() {
    assert_eq!(read_alone(&[0x80, 0x00]), Err(refusal(4, 0, 1)));
}

#[test]
fn the_ends_of_the_second_element() {
    let held = held_by(first_worked());
    assert_eq!(
        read(&[0x80], Some(&held), MAP_NUMBERS),
        Err(refusal(3, 1, 1))
    );
    assert_eq!(
        read(&[0x80, 0, 0], Some(&held), MAP_NUMBERS),
        Err(refusal(15, 16, 2))
    );
}

#[test]
fn slots_of_254_and_255_bytes() {
    let held = held_by(first_worked());
    for (slot, length_bits) in [(254, 8), (255, 16)] {
        let draft = Draft::new(&[("same mux", 1, 1), ("length", slot, 8)]);
        let draft = if slot == 255 {
            draft.add(&[("more", 0, 8)])
        } else {
            draft
        };
        let mut element = draft.bytes();
        element.resize(
            (1 + length_bits as usize + 8 * slot as usize).div_ceil(8),
            0,
        );
        let reading = read(&element, Some(&held), MAP_NUMBERS).unwrap();
        let lengths = Item {
            kind: Kind::Lengths,
            stream: 0,
            first: 1,
            width: length_bits,
        };
        let payload = Item {
            kind: Kind::Payload,
            stream: 0,
            first: 1 + length_bits,
            width: 8 * slot,
        };
        assert_eq!(reading.items[1..3], [lengths, payload]);
    }
}

#[test]
fn a_variable_value_of_256() {
    let draft = Draft::version1(16, &CORE)
        .with("tara count", 1)
        .with("tara", 1)
        .after("tara", &[("low", 0, 8)]);
    assert_eq!(accept(&draft).held.tara, 256);
}

fn with_sbr(asc_len: u64) -> Draft {
    let wanted = asc_len.saturating_sub(16).min(21);
    let audio = concat(&[&CORE, &SBR]);
    let draft = Draft::version1(asc_len, &audio);
    if wanted == 21 {
        draft
    } else {
        shortened(draft, "sbr sync", 21, wanted)
    }
}

fn with_ps(asc_len: u64) -> Draft {
    let audio = concat(&[&CORE, &SBR, &PS]);
    let draft = Draft::version1(asc_len, &audio);
    if asc_len == 49 {
        draft
    } else {
        shortened(draft, "ps sync", 12, asc_len - 37)
    }
}

/// Leaves only the first `keep` of the `width` bits that begin at a field.
fn shortened(mut draft: Draft, name: &str, width: u64, keep: u64) -> Draft {
    let first = draft.first_bit(name);
    let place = draft.fields_before(name) as usize;
    let value = second::bits::number(&draft.bytes(), first, width) >> (width - keep);
    let mut passed = 0;
    while passed < width {
        passed += draft.fields.remove(place).2;
    }
    draft.fields.insert(place, ("kept", value, keep));
    draft
}

#[test]
fn asc_len_37_has_sbr() {
    let reading = accept(&with_sbr(37));
    assert_eq!(
        reading.held.streams[0].audio.form,
        Form::SbrOn(Frequency::Index(3))
    );
    let row = &rows(&reading.held)[0];
    assert_eq!(
        (row.sbr, row.ps, row.core_hertz, row.output_hertz),
        (1, -1, 24000, 48000)
    );
    assert_eq!(row.output_channels, 1);
}

#[test]
fn asc_len_36_and_32_are_passed() {
    let draft = with_sbr(37).with("asc len", 36);
    refuse_end(&draft, "extension index", 10);
    let draft = with_sbr(37).with("asc len", 32);
    refuse_end(&draft, "sbr flag", 10);
    assert_eq!(read_alone(&with_sbr(36).bytes()), Err(refusal(10, 70, 20)));
    assert_eq!(read_alone(&with_sbr(32).bytes()), Err(refusal(10, 69, 19)));
}

#[test]
fn asc_len_31_is_fill() {
    let reading = accept(&with_sbr(31));
    assert_eq!(reading.held.streams[0].audio.form, Form::None);
    let row = &rows(&reading.held)[0];
    assert_eq!((row.sbr, row.ps, row.output_channels), (-1, -1, 1));
    assert_eq!(reading.items[1].width, 36 + 31 + 11 + 2);
    assert_eq!(reading.fields, 17 + 5);
}

#[test]
fn asc_len_49_has_ps() {
    let reading = accept(&with_ps(49));
    let row = &rows(&reading.held)[0];
    assert_eq!((row.sbr, row.ps, row.output_hertz), (1, 1, 48000));
    assert_eq!(row.output_channels, 2);
    assert_eq!(reading.fields, 23 + 5);
}

#[test]
fn asc_len_48_is_fill() {
    let reading = accept(&with_ps(48));
    let row = &rows(&reading.held)[0];
    assert_eq!((row.sbr, row.ps, row.output_hertz), (1, -1, 48000));
    assert_eq!(row.output_channels, 1);
    assert_eq!(reading.fields, 21 + 5);
}

/// Two programs of eight layers, and the start of a third where announced.
fn sixteen_streams(programs: u64) -> Draft {
    let again = [
        ("same config", 1, 1),
        ("slot type", 0, 3),
        ("slot value", 0, 8),
    ];
    let draft = Draft::version0(&CORE)
        .until("layers")
        .with("programs", programs);
    let draft = draft
        .add(&[("layers", 7, 3)])
        .add(&CORE)
        .add(&again[1..])
        .add(&again.repeat(7));
    draft.add(&[("layers again", 7, 3)]).add(&again.repeat(8))
}

#[test]
fn sixteen_streams_and_seventeen() {
    let end = [
        ("other", 0, 1),
        ("crc", 0, 1),
        ("lengths", 0, 64),
        ("more lengths", 0, 64),
    ];
    assert_eq!(
        accept(&sixteen_streams(1).add(&end)).held.stream_count(),
        16
    );
    let seventeen = sixteen_streams(2).add(&[("one more", 0, 3)]).add(&end);
    refuse_value(&seventeen, "one more", 7);
}

#[test]
fn the_summary_of_the_worked_capture() {
    let expected = "\
element  program  layer  stream  core type    core Hz  output Hz  SBR            PS             output channels
      0        0      0       0  2 AAC LC       48000      48000  not signalled  not signalled                2
";
    assert_eq!(summary(&WORKED, false), expected);
}
