//! Both sides of each limit of the reader.

mod common;

use common::*;
use second::read::{read, MAP_NUMBERS};
use second::record::{Form, Frequency, Record};
use second::rows::{rows, table, NO_STREAM};

#[test]
fn map_room_comes_first() {
    assert_eq!(read(&[], None, MAP_NUMBERS - 1), Err(refusal(1, 0, 0)));
    assert_eq!(read(first_worked(), None, 4367), Err(refusal(1, 0, 0)));
    assert!(read(first_worked(), None, 4368).is_ok());
}

#[test]
fn element_size() {
    let held = held_by(first_worked());
    assert_eq!(read_alone(&[]), Err(refusal(2, 0, 0)));
    assert_eq!(read_alone(&[0x80; 8192]), Err(refusal(2, 0, 0)));
    assert_eq!(
        read(&[0x80; 8192], Some(&held), MAP_NUMBERS),
        Err(refusal(2, 0, 0))
    );
    assert_eq!(read_alone(&[0x80; 8191]), Err(refusal(4, 0, 1)));
    assert_eq!(read_alone(&[0x80]), Err(refusal(4, 0, 1)));
}

#[test]
fn the_longest_element_is_read() {
    let held = held_by(first_worked());
    let mut pen = second::bits::Pen::default();
    pen.put(1, 1);
    for _ in 0..31 {
        pen.put(255, 8);
    }
    pen.put(253, 8);
    let mut element = pen.into_bytes();
    element.resize(8191, 0);
    let reading = read(&element, Some(&held), MAP_NUMBERS).unwrap();
    assert_eq!(reading.fields, 33);
    assert_eq!(reading.items[2].width, 8 * 8158);
}

#[test]
fn a_held_record_that_cannot_be_sent_counts_as_none() {
    let held = held_by(first_worked());
    let bad = Record { crc: 1, ..held };
    assert_eq!(
        read(&[0x80, 0], Some(&bad), MAP_NUMBERS),
        Err(refusal(4, 0, 1))
    );
    assert_eq!(
        read(first_worked(), Some(&bad), MAP_NUMBERS),
        read_alone(first_worked())
    );
}

#[test]
fn every_field_can_run_out() {
    for whole in [
        Draft::version0(&CORE),
        Draft::version1(49, &concat(&[&CORE, &SBR, &PS])),
    ] {
        let bytes = whole.bytes();
        for cut in 1..bytes.len() {
            let mut last = "";
            for (name, _, width) in &whole.fields {
                last = name;
                if whole.first_bit(name) + width > 8 * cut as u64 {
                    break;
                }
            }
            let expected = refusal(3, whole.first_bit(last), whole.fields_before(last));
            assert_eq!(read_alone(&bytes[..cut]), Err(expected), "cut at {cut}");
        }
    }
}

#[test]
fn version_a_and_framing() {
    refuse_value(
        &Draft::version1(16, &CORE).with("version a", 1),
        "version a",
        5,
    );
    accept(&Draft::version1(16, &CORE));
    refuse_value(&Draft::version0(&CORE).with("framing", 0), "framing", 6);
    refuse_value(&Draft::version1(16, &CORE).with("framing", 0), "framing", 6);
}

#[test]
fn object_types() {
    for kind in 0..31 {
        let draft = Draft::version0(&CORE).with("type", kind);
        match kind {
            1..=4 => assert_eq!(accept(&draft).held.streams[0].audio.core_type, kind),
            5 | 29 => {}
            _ => refuse_value(&draft, "type", 8),
        }
    }
}

#[test]
fn object_type_31_takes_six_more_bits() {
    let draft = Draft::version0(&CORE)
        .with("type", 31)
        .after("type", &[("more", 2, 6)]);
    let expected = refusal(8, draft.first_bit("type"), draft.fields_before("more") + 1);
    assert_eq!(read_alone(&draft.bytes()), Err(expected));
    let short = Draft::version1(10, &CORE)
        .with("type", 31)
        .after("type", &[("more", 2, 6)]);
    refuse_end(&short, "more", 10);
}

#[test]
fn core_types_under_5_and_29() {
    for (outer, flags) in [(5, (1, -1)), (29, (1, 1))] {
        for kind in 0..31 {
            let draft = Draft::version0(&layered(outer)).with("core", kind);
            if !matches!(kind, 1..=4) {
                refuse_value(&draft, "core", 8);
                continue;
            }
            let row = &rows(&accept(&draft).held)[0];
            assert_eq!((row.sbr, row.ps), flags);
            assert_eq!(
                (row.core_type, row.core_hertz, row.output_hertz),
                (kind, 24000, 48000)
            );
        }
    }
}

#[test]
fn a_core_type_of_31_takes_six_more_bits() {
    let draft = Draft::version0(&layered(5))
        .with("core", 31)
        .after("core", &[("more", 63, 6)]);
    let expected = refusal(8, draft.first_bit("core"), draft.fields_before("more") + 1);
    assert_eq!(read_alone(&draft.bytes()), Err(expected));
}

#[test]
fn no_tail_after_type_5_or_in_version_0() {
    let audio = concat(&[&layered(5), &SBR, &PS]);
    let layered_bits = audio.iter().map(|field| field.2).sum();
    let reading = accept(&Draft::version1(layered_bits, &audio));
    assert_eq!(
        reading.held.streams[0].audio.form,
        Form::Type5(Frequency::Index(3))
    );
    assert_eq!(reading.fields, 11 + 8 + 5);
    // In version 0 the same bits are frameLengthType and what follows.
    let draft = Draft::version0(&concat(&[&CORE, &SBR]));
    let place = draft.first_bit("sbr sync");
    assert_eq!(
        read_alone(&draft.bytes()),
        Err(refusal(13, place, draft.fields_before("sbr sync") + 1))
    );
}

#[test]
fn frequencies() {
    for index in 0..15 {
        let draft = Draft::version0(&CORE).with("index", index);
        match index {
            13 | 14 => refuse_value(&draft, "index", 9),
            _ => assert_eq!(
                accept(&draft).held.streams[0].audio.frequency,
                Frequency::Index(index)
            ),
        }
    }
    let all: Vec<u64> = (0..13)
        .filter_map(|index| Frequency::Index(index).hertz())
        .collect();
    let expected = [
        96000, 88200, 64000, 48000, 44100, 32000, 24000, 22050, 16000, 12000, 11025, 8000, 7350,
    ];
    assert_eq!(all, expected);
}

#[test]
fn frequencies_in_24_bits() {
    let draft = Draft::version0(&CORE)
        .with("index", 15)
        .after("index", &[("hertz", 0, 24)]);
    refuse_value(&draft, "hertz", 9);
    for hertz in [1, 0xFF_FFFF] {
        let row = &rows(&accept(&draft.clone().with("hertz", hertz)).held)[0];
        assert_eq!((row.core_hertz, row.output_hertz), (hertz, hertz));
    }
    let after_sync = Draft::version1(61, &concat(&[&CORE, &SBR]))
        .with("extension index", 15)
        .after("extension index", &[("hertz", 0, 24)]);
    refuse_value(&after_sync, "hertz", 9);
    assert_eq!(
        rows(&accept(&after_sync.clone().with("hertz", 7)).held)[0].output_hertz,
        7
    );
    refuse_end(&after_sync.with("asc len", 60), "hertz", 10);
}

#[test]
fn channel_configurations() {
    for configuration in 0..16 {
        let draft = Draft::version0(&CORE).with("channels", configuration);
        match configuration {
            1..=6 => assert_eq!(rows(&accept(&draft).held)[0].output_channels, configuration),
            7 => assert_eq!(rows(&accept(&draft).held)[0].output_channels, 8),
            _ => refuse_value(&draft, "channels", 11),
        }
    }
}

#[test]
fn one_bit_flags_of_the_configuration() {
    refuse_value(&Draft::version0(&CORE).with("depends", 1), "depends", 12);
    refuse_value(
        &Draft::version0(&CORE).with("extension flag", 1),
        "extension flag",
        12,
    );
    let both = Draft::version0(&CORE)
        .with("depends", 1)
        .with("extension flag", 1);
    refuse_value(&both, "depends", 12);
    let reading = accept(&Draft::version0(&CORE).with("frame length flag", 1));
    assert_eq!(reading.held.streams[0].audio.frame_length_flag, 1);
}

#[test]
fn extension_types() {
    for kind in 0..31 {
        let audio = concat(&[&CORE, &SBR]);
        let draft = Draft::version1(37, &audio).with("extension type", kind);
        match kind {
            5 => {}
            22 => refuse_value(&draft, "extension type", 8),
            _ => {
                let reading = accept(&draft);
                assert_eq!(reading.held.streams[0].audio.form, Form::None);
                assert_eq!(reading.fields, 19 + 5);
            }
        }
    }
}

#[test]
fn an_extension_type_of_31_says_nothing() {
    let audio = concat(&[&CORE, &SBR[..2], &[("more", 22, 6)]]);
    let draft = Draft::version1(38, &audio).with("extension type", 31);
    let reading = accept(&draft);
    assert_eq!(reading.held.streams[0].audio.form, Form::None);
    assert_eq!(reading.fields, 20 + 5);
    refuse_end(&draft.with("asc len", 37), "more", 10);
}

#[test]
fn sbr_flag_0_and_other_syncs() {
    let off = Draft::version1(33, &concat(&[&CORE, &SBR[..3]])).with("sbr flag", 0);
    let row = &rows(&accept(&off).held)[0];
    assert_eq!((row.sbr, row.ps, row.output_hertz), (0, -1, 24000));
    let other = Draft::version1(37, &concat(&[&CORE, &SBR])).with("sbr sync", 0x2B6);
    assert_eq!(accept(&other).fields, 18 + 5);
    let other = Draft::version1(49, &concat(&[&CORE, &SBR, &PS])).with("ps sync", 0x549);
    let reading = accept(&other);
    assert_eq!(
        reading.held.streams[0].audio.form,
        Form::SbrOn(Frequency::Index(3))
    );
    assert_eq!(reading.fields, 22 + 5);
    let no_ps = Draft::version1(49, &concat(&[&CORE, &SBR, &PS])).with("ps flag", 0);
    assert_eq!(rows(&accept(&no_ps).held)[0].ps, 0);
}

#[test]
fn asc_len_cuts_every_field() {
    let audio = concat(&[&CORE, &SBR]);
    let draft = Draft::version1(0, &audio);
    refuse_end(&draft, "type", 10);
    for (length, name) in [
        (4, "type"),
        (8, "index"),
        (12, "channels"),
        (13, "frame length flag"),
    ] {
        refuse_end(&draft.clone().with("asc len", length), name, 10);
    }
    for (length, name) in [(14, "depends"), (15, "extension flag")] {
        refuse_end(&draft.clone().with("asc len", length), name, 10);
    }
}

#[test]
fn asc_len_before_the_end_before_the_value() {
    let whole = Draft::version1(4, &CORE).until("index").bytes();
    let first = Draft::version1(4, &CORE).first_bit("type");
    assert_eq!(
        read_alone(&whole[..first as usize / 8 + 1]),
        Err(refusal(10, 37, 11))
    );
    let enough = Draft::version1(5, &CORE).bytes();
    assert_eq!(
        read_alone(&enough[..first as usize / 8 + 1]),
        Err(refusal(3, 37, 11))
    );
    let bad = Draft::version1(5, &CORE).with("type", 6);
    assert_eq!(read_alone(&bad.bytes()[..5]), Err(refusal(3, 37, 11)));
    refuse_value(&bad, "type", 8);
}

#[test]
fn fill_that_passes_the_end() {
    let draft = Draft::version1(200, &layered(5)).with("asc len", 200);
    let fill = draft.first_bit("slot type");
    let expected = refusal(3, fill, draft.fields_before("slot type"));
    assert_eq!(read_alone(&draft.bytes()), Err(expected));
    // With 16 bits left the sync is a field, and it is looked for first.
    let draft = Draft::version1(250, &CORE).until("other");
    let sync = draft.first_bit("slot type");
    let bytes = &draft.bytes()[..sync as usize / 8 + 1];
    assert_eq!(
        read_alone(bytes),
        Err(refusal(3, sync, draft.fields_before("slot type")))
    );
}

#[test]
fn the_longest_asc_len() {
    let draft = Draft::version1(255, &layered(29))
        .with("asc count", 3)
        .after(
            "asc len",
            &[("second", 255, 8), ("third", 255, 8), ("fourth", 255, 8)],
        );
    let expected = refusal(
        3,
        draft.first_bit("slot type"),
        draft.fields_before("slot type"),
    );
    assert_eq!(read_alone(&draft.bytes()), Err(expected));
}

#[test]
fn frame_length_types() {
    for kind in 0..8 {
        let draft = Draft::version0(&CORE).with("slot type", kind);
        match kind {
            0 => assert_eq!(accept(&draft).held.streams[0].buffer_fullness, 255),
            1 => {}
            _ => refuse_value(&draft, "slot type", 13),
        }
    }
}

fn fixed(frame_length: u64) -> Draft {
    let draft = Draft::version0(&CORE).until("slot type");
    draft.add(&[
        ("slot type", 1, 3),
        ("frame length", frame_length, 9),
        ("other", 0, 1),
        ("crc", 0, 1),
    ])
}

#[test]
fn fixed_slots() {
    for frame_length in [0, 511] {
        let draft = fixed(frame_length);
        let bits: u64 = draft.fields.iter().map(|field| field.2).sum();
        let mut element = draft.bytes();
        let whole = (bits + 8 * (frame_length + 20)).div_ceil(8) as usize;
        element.resize(whole, 0);
        let reading = read_alone(&element).unwrap();
        assert_eq!(
            (reading.items[2].width, reading.items[3].width),
            (0, 8 * (frame_length + 20))
        );
        assert_eq!(reading.fields, draft.fields.len() as u64);
        let cut = read_alone(&element[..whole - 1]);
        assert_eq!(cut, Err(refusal(3, bits, draft.fields.len() as u64)));
    }
}

fn grouped(groups: &[(u64, u64)]) -> Draft {
    let mut draft = Draft::version0(&CORE).with("other", 1).until("crc");
    for (more, byte) in groups {
        draft = draft.add(&[("more", *more, 1), ("other length", *byte, 8)]);
    }
    draft.add(&[("crc", 0, 1), ("length", 0, 8)])
}

#[test]
fn groups_of_the_other_length() {
    let four = grouped(&[(1, 0), (1, 0), (1, 0), (0, 0)]);
    let reading = accept(&four);
    assert_eq!(
        (reading.held.other_present, reading.held.other_bits),
        (1, 0)
    );
    assert_eq!(reading.items[4].width, 0);
    let five = grouped(&[(1, 0), (1, 0), (1, 0), (1, 0), (0, 0)]);
    let place = five.first_bit("more") + 27;
    assert_eq!(
        read_alone(&five.bytes()),
        Err(refusal(14, place, five.fields_before("more") + 7))
    );
}

#[test]
fn other_data_up_to_the_end() {
    let draft = grouped(&[(0, 9)]);
    let bits: u64 = draft.fields.iter().map(|field| field.2).sum();
    let mut element = draft.bytes();
    element.resize((bits + 9).div_ceil(8) as usize, 0xFF);
    assert_eq!(read_alone(&element).unwrap().held.other_bits, 9);
    element.pop();
    assert_eq!(
        read_alone(&element),
        Err(refusal(3, bits, draft.fields.len() as u64))
    );
    let huge = grouped(&[(1, 255), (1, 255), (1, 255), (0, 255)]);
    let bits: u64 = huge.fields.iter().map(|field| field.2).sum();
    assert_eq!(
        read_alone(&huge.bytes()),
        Err(refusal(3, bits, huge.fields.len() as u64))
    );
}

#[test]
fn other_data_of_version_1() {
    let draft = Draft::version1(16, &CORE)
        .with("other", 1)
        .after("other", &[("count", 1, 2), ("high", 0, 8), ("low", 3, 8)])
        .add(&[("other data", 5, 3)]);
    let reading = accept(&draft);
    assert_eq!(reading.held.other_bits, 3);
    assert_eq!(reading.fields, draft.fields.len() as u64 - 1);
}

#[test]
fn crc_is_kept() {
    let draft = Draft::version0(&CORE)
        .with("crc", 1)
        .after("crc", &[("sum", 0xA5, 8)]);
    let reading = accept(&draft);
    assert_eq!((reading.held.crc_present, reading.held.crc), (1, 0xA5));
}

#[test]
fn bytes_left_after_the_alignment() {
    let draft = Draft::version0(&CORE);
    let mut element = draft.bytes();
    let whole = element.len() as u64;
    element.push(0);
    assert_eq!(
        read_alone(&element),
        Err(refusal(15, 8 * whole, draft.fields.len() as u64))
    );
    element.extend([0; 50]);
    assert_eq!(
        read_alone(&element),
        Err(refusal(15, 8 * whole, draft.fields.len() as u64))
    );
}

#[test]
fn alignment_of_any_value() {
    let mut element = Draft::version0(&CORE).bytes();
    *element.last_mut().unwrap() |= 1;
    assert!(read_alone(&element).is_ok());
}

#[test]
fn same_config_takes_the_stream_just_before_across_programs() {
    let mut draft = Draft::version0(&CORE).until("layers").with("programs", 1);
    let slot = [("slot type", 0, 3), ("slot value", 0, 8)];
    let mut second = CORE;
    second[0].1 = 4;
    draft = draft.add(&[("layers", 1, 3)]).add(&CORE).add(&slot);
    draft = draft.add(&[("same config", 0, 1)]).add(&second).add(&slot);
    draft = draft
        .add(&[("layers", 0, 3), ("same config", 1, 1)])
        .add(&slot);
    draft = draft.add(&[("other", 0, 1), ("crc", 0, 1), ("lengths", 0, 24)]);
    let record = accept(&draft).held;
    assert_eq!(
        record
            .sent_streams()
            .iter()
            .map(|s| s.audio.core_type)
            .collect::<Vec<_>>(),
        [2, 4, 4]
    );
    let table = table(&record);
    assert_eq!((table[0][0], table[0][1], table[1][0]), (0, 1, 2));
    assert_eq!(
        (table[0][2], table[1][1], table[15][7]),
        (NO_STREAM, NO_STREAM, NO_STREAM)
    );
    let pairs: Vec<_> = rows(&record)
        .iter()
        .map(|row| (row.program, row.layer, row.stream))
        .collect();
    assert_eq!(pairs, [(0, 0, 0), (0, 1, 1), (1, 0, 2)]);
}

#[test]
fn sixteen_programs_leave_no_second_layer() {
    let mut draft = Draft::version0(&CORE).until("layers").with("programs", 15);
    let slot = [("slot type", 0, 3), ("slot value", 0, 8)];
    draft = draft.add(&[("layers", 0, 3)]).add(&CORE).add(&slot);
    for _ in 0..14 {
        draft = draft
            .add(&[("layers", 0, 3), ("same config", 1, 1)])
            .add(&slot);
    }
    let last = draft
        .clone()
        .add(&[("last", 0, 3), ("same config", 1, 1)])
        .add(&slot);
    let last = last.add(&[
        ("other", 0, 1),
        ("crc", 0, 1),
        ("high", 0, 64),
        ("low", 0, 64),
    ]);
    assert_eq!(accept(&last).held.stream_count(), 16);
    refuse_value(&draft.add(&[("last", 1, 3), ("rest", 0, 30)]), "last", 7);
}

#[test]
fn sixty_four_subframes() {
    let mut draft = Draft::version0(&CORE).with("subframes", 63);
    for _ in 1..64 {
        draft = draft.add(&[("length", 0, 8)]);
    }
    let reading = accept(&draft);
    assert_eq!(reading.items.len(), 2 + 64 * 2 + 1);
    let short = draft.bytes();
    let short = &short[..short.len() - 1];
    assert_eq!(read_alone(short).unwrap_err().number, 3);
}
