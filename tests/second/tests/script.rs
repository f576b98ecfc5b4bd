//! Scripts: the worked values through `answers`, and what the maker makes.

mod common;

use common::{concat, first_worked, held_by, meet_ps_over_each, Draft, CORE, PS, SBR, WORKED};
use second::answers::{alone, answers, counts, difference, two_by_ps};
use second::broken;
use second::draw;
use second::maker::script;
use second::random::Random;
use second::record::{Form, Frequency, Record, Stream};
use second::script::{Case, Cases};
use second::words::{self, ENDING_AT, LAYERS_AT, STREAMS_AT, STREAM_WORDS, WORDS};

fn answer(cases: &[Case]) -> String {
    answers(&bytes(cases))
}

fn bytes(cases: &[Case]) -> Vec<u8> {
    let mut script = Vec::new();
    cases.iter().for_each(|case| case.put(&mut script));
    script
}

fn read(element: &[u8]) -> Case {
    Case::Read {
        room: 4400,
        element: element.to_vec(),
    }
}

fn hold(record: &Record) -> Case {
    Case::Hold {
        present: true,
        record: Box::new(record.clone()),
    }
}

const FIRST: &str = "accepted, items 5, fields 17, configuration sent
  1 0 0 1
  2 0 1 44
  3 0 45 8
  4 0 53 16
  6 0 69 3
map kept
";
const SECOND: &str = "accepted, items 4, fields 2, configuration held
  1 0 0 1
  3 0 1 8
  4 0 9 0
  6 0 9 7
map kept
";

#[test]
fn the_worked_elements() {
    let cases = [
        read(&[0x80, 0x00]),
        read(first_worked()),
        Case::Rows,
        read(&[0x80, 0x00]),
        read(&[0x80]),
        read(&[0x80, 0x00, 0x00]),
    ];
    let expected = [
        "refused, 4 at bit 0, fields 1\nmap kept\n",
        FIRST,
        "row 0 0 2 48000 48000 -1 -1 2\n",
        SECOND,
        "refused, 3 at bit 1, fields 1\nmap kept\n",
        "refused, 15 at bit 16, fields 2\nmap kept\n",
    ];
    assert_eq!(answer(&cases), expected.concat());
}

/// The bytes of the script itself, apart from `Case::put`.
#[test]
fn a_script_by_its_bytes() {
    let mut script = vec![b'R', 0x11, 0x10, 0, 9];
    script.extend(first_worked());
    script.extend([b'W', b'R', 0x11, 0x0F, 0, 1, 0x80]);
    script.extend([b'S', 0, 0, 0, 1, 0, 0, 17]);
    script.extend(WORKED);
    script.extend([
        b'P', 1, 0, 10, 0, 1, 0, 0, 0, 2, 0, 0, 2, 0xAB, 0xCD, 0, 0, 0,
    ]);
    script.extend([b'F', 0, 5, 0, 0, 2, 0x80, 0x00]);
    script.extend([b'F', 0, 4, 0, 0, 2, 0x80, 0x00]);
    let whole = answers(&script);
    let expected = [
        FIRST,
        "row 0 0 2 48000 48000 -1 -1 2\n",
        "refused, 1 at bit 0, fields 0\nmap kept\n",
        "found 12 2\n",
        "done 9\n200011901fe0155e68\noutput kept\n",
        "done 5\n56e0028000\noutput kept\n",
        "refused, 19 at bit 0, fields 0\noutput kept\n",
    ];
    assert_eq!(whole, expected.concat());
    script.extend([b'x', b'W']);
    assert_eq!(answers(&script), whole);
}

/// Each word is 0 or its own number in docs/SCRIPT.md.
#[test]
fn the_places_of_the_words() {
    assert_eq!((ENDING_AT, LAYERS_AT, STREAMS_AT), (6, 10, 26));
    assert_eq!((STREAM_WORDS, WORDS), (14, 250));
    let mut record = Record {
        version_a: 1,
        tara: 2,
        same_framing: 3,
        num_sub_frames: 4,
        num_program: 5,
        other_present: 6,
        other_bits: 7,
        crc_present: 8,
        crc: 9,
        ..Record::default()
    };
    record.num_layer[0] = 10;
    record.num_layer[15] = 25;
    record.streams[0].audio.core_type = 26;
    record.streams[0].frame_length = 39;
    record.streams[1].audio.core_type = 40;
    record.streams[15].frame_length = 249;
    let mut script = vec![b'H', 1];
    for place in 0..250_u32 {
        let word = match place {
            0..=10 | 25 | 26 | 39 | 40 | 249 => place,
            _ => 0,
        };
        script.extend(word.to_be_bytes());
    }
    assert_eq!(bytes(&[hold(&record)]), script);
    assert_eq!(Cases::new(&script).next(), Some(hold(&record)));
}

/// A record put together word by word.
#[test]
fn the_words_of_a_record() {
    let mut expected = vec![0; WORDS];
    let mut put = |at: usize, values: &[u32]| {
        expected[at..at + values.len()].copy_from_slice(values);
    };
    let streams: [[u32; STREAM_WORDS]; 3] = [
        [2, 0, 6, 1, 1, 0, 0, 5, 1, 48000, 1, 0, 255, 0],
        [4, 1, 7350, 7, 0, 0, 0, 3, 0, 0, 0, 1, 0, 511],
        [1, 0, 3, 2, 0, 0, 0, 2, 0, 4, 0, 0, 3, 0],
    ];
    put(0, &[1, 0, 256, 1, 5, 1]);
    put(ENDING_AT, &[1, 70000, 1, 254]);
    put(LAYERS_AT, &[1, 0]);
    put(STREAMS_AT, streams.as_flattened());
    let record = words::record(&expected).unwrap();
    assert!(record.is_sendable());
    assert_eq!(record.stream_count(), 3);
    assert_eq!((record.other_bits, record.crc), (70000, 254));
    let audio = |stream: usize| &record.streams[stream].audio;
    assert_eq!(audio(0).form, Form::SbrOnPs(Frequency::Hertz(48000), 1));
    assert_eq!(audio(0).frame_length_flag, 1);
    assert_eq!(audio(1).frequency, Frequency::Hertz(7350));
    assert_eq!(audio(1).form, Form::SbrOff);
    assert_eq!(record.streams[1].fixed_slot(), Some(531));
    assert_eq!(audio(2).form, Form::Type29(Frequency::Index(4)));
    assert_eq!(record.streams[3], Stream::default());
    assert_eq!(words::words(&record), expected);
}

#[test]
fn words_and_records_are_the_same() {
    let mut random = Random::new(8);
    for _ in 0..200 {
        let record = draw::record(&mut random);
        assert_eq!(words::record(&words::words(&record)), Some(record));
    }
}

#[test]
fn asc_len_through_answers() {
    let sbr = Draft::version1(37, &concat(&[&CORE, &SBR]));
    let ps = Draft::version1(49, &concat(&[&CORE, &SBR, &PS]));
    for (draft, row) in [
        (&sbr, "row 0 0 2 24000 48000 1 -1 1\n"),
        (&ps, "row 0 0 2 24000 48000 1 1 2\n"),
    ] {
        assert!(answer(&[read(&draft.bytes()), Case::Rows]).ends_with(row));
    }
    let short = sbr.with("asc len", 36).bytes();
    assert_eq!(
        answer(&[read(&short)]),
        "refused, 10 at bit 70, fields 20\nmap kept\n"
    );
}

/// Rows of records that 16 refuses, and nothing held where they are.
#[test]
fn rows_of_broken_records() {
    let mut record = held_by(first_worked());
    record.num_program = 0xFFFF_FFFF;
    record.num_layer[1] = 7;
    record.num_layer[2] = 7;
    let text = answer(&[hold(&record), Case::Rows, read(&[0x80, 0x00])]);
    assert_eq!(text.lines().count(), 16 + 2);
    assert!(text.contains("row 2 6 0 96000 96000 -1 -1 0\n"));
    assert!(!text.contains("row 2 7") && !text.contains("row 3"));
    assert!(text.ends_with("refused, 4 at bit 0, fields 1\nmap kept\n"));
    let mut record = held_by(first_worked());
    record.streams[0].audio.frequency = Frequency::Index(13);
    record.streams[0].audio.form = Form::SbrOnPs(Frequency::Hertz(0xFFFF_FFFF), 256);
    record.streams[0].audio.channels = 8;
    assert_eq!(
        answer(&[hold(&record), Case::Rows]),
        "row 0 0 2 0 4294967295 1 1 0\n"
    );
}

/// A PS flag other than 0 counts as 1, so over configuration 1 it gives two channels.
#[test]
fn ps_over_one_in_broken_records() {
    let ps = Draft::version1(49, &concat(&[&CORE, &SBR, &PS]));
    let mut record = held_by(&ps.bytes());
    let mut row = |version: u64, flag: u64, configuration: u64| {
        record.version = version;
        record.streams[0].audio.form = Form::SbrOnPs(Frequency::Index(3), flag);
        record.streams[0].audio.channels = configuration;
        assert!(!record.is_sendable());
        answer(&[hold(&record), Case::Rows])
    };
    for flag in [2, 256, 0xFFFF_FFFF] {
        for (configuration, channels) in [(0, 0), (1, 2), (2, 2), (3, 3), (7, 8), (8, 0)] {
            let expected = format!("row 0 0 2 24000 48000 1 1 {channels}\n");
            assert_eq!(row(1, flag, configuration), expected);
        }
    }
    // A form after 0x2B7 in version 0.
    assert_eq!(row(0, 2, 1), "row 0 0 2 24000 48000 1 1 2\n");
    assert_eq!(row(0, 1, 1), "row 0 0 2 24000 48000 1 1 2\n");
    assert_eq!(row(0, 0, 1), "row 0 0 2 24000 48000 1 0 1\n");
}

#[test]
fn rows_of_two_channels_by_ps_are_counted() {
    let sbr = Draft::version1(37, &concat(&[&CORE, &SBR]));
    let ps = Draft::version1(49, &concat(&[&CORE, &SBR, &PS]));
    let two = ps.clone().with("channels", 2);
    let mut cases = vec![Case::Rows];
    for draft in [&ps, &sbr, &ps, &two] {
        cases.extend([read(&draft.bytes()), Case::Rows]);
    }
    assert_eq!(two_by_ps(&bytes(&cases)), 2);
    assert_eq!(two_by_ps(&bytes(&[read(&ps.bytes())])), 0);
}

#[test]
fn cut_cases_print_nothing() {
    let record = held_by(first_worked());
    let write = Case::Write {
        send: true,
        room: 9,
        lengths: vec![2],
        payload: vec![0xAB, 0xCD],
        other: Vec::new(),
    };
    let hunt = Case::Hunt {
        start: 0,
        capture: WORKED.to_vec(),
    };
    for case in [hold(&record), read(first_worked()), write, hunt] {
        let whole = bytes(&[case]);
        for end in 0..whole.len() {
            assert_eq!(answers(&whole[..end]), "");
        }
    }
}

#[test]
fn ways_are_refused_in_every_script() {
    for seed in 1..=3 {
        let script = script(seed);
        let broken = Cases::new(&script)
            .filter(|case| matches!(case, Case::Hold { record, .. } if !record.is_sendable()));
        assert_eq!(broken.count(), broken::ways().len());
    }
}

#[test]
fn scripts_are_made_again_and_never_too_long() {
    for seed in 1..=10 {
        let script = script(seed);
        assert!(script.len() < 2_000_000);
        assert_eq!(script, second::maker::script(seed));
        let cases: Vec<Case> = Cases::new(&script).collect();
        assert!((300..=700).contains(&cases.len()), "{}", cases.len());
        assert_eq!(bytes(&cases), script);
        assert!(!answers(&script).contains("changed"));
    }
}

#[test]
fn every_script_meets_every_refusal() {
    let mut sums = [0; 21];
    for seed in 1..=5 {
        let counts = counts(&script(seed));
        for (number, count) in counts.into_iter().enumerate().skip(1) {
            assert!(count > 0, "seed {seed}, refusal {number}");
            sums[number] += count;
        }
    }
    for (number, sum) in sums.iter().enumerate().skip(1) {
        assert!(*sum >= 10, "refusal {number} is met {sum} times");
    }
}

#[test]
fn scripts_hold_the_edges() {
    let script = script(1);
    let cases: Vec<Case> = Cases::new(&script).collect();
    let has = |wanted: &dyn Fn(&Case) -> bool| cases.iter().any(wanted);
    for rooms in [0, 4367, 4368, 4400] {
        assert!(has(
            &|case| matches!(case, Case::Read { room, .. } if *room == rooms)
        ));
    }
    for size in [0, 8191, 8192] {
        assert!(has(
            &|case| matches!(case, Case::Read { element, .. } if element.len() == size)
        ));
    }
    for size in [0, 65536, 65537] {
        assert!(has(
            &|case| matches!(case, Case::Hunt { capture, .. } if capture.len() == size)
        ));
    }
    for size in [0, 1, 8191, 8192] {
        assert!(has(
            &|case| matches!(case, Case::Frame { element, .. } if element.len() == size)
        ));
    }
    assert!(has(&|case| matches!(
        case,
        Case::Hunt {
            start: u32::MAX,
            ..
        }
    )));
    assert!(has(
        &|case| matches!(case, Case::Write { lengths, .. } if lengths.contains(&u32::MAX))
    ));
    let text = answers(&script);
    assert!(text.contains("accepted, items 1092,"));
    assert!(text.contains("done 8191\n") && text.contains("done 8194\n"));
}

#[test]
fn sizes_beyond_the_limits_stop() {
    let hunt = |size: usize| Case::Hunt {
        start: 0,
        capture: vec![0; size],
    };
    let refused = "refused, 20 at bit 0, fields 0\n";
    assert_eq!(answer(&[hunt(65_537), Case::Rows]).lines().count(), 2);
    assert_eq!(answer(&[hunt(65_537)]), refused);
    assert_eq!(answer(&[hunt(65_538), hunt(0)]), "");
}

#[test]
fn the_case_that_differs_is_named() {
    let script = bytes(&[read(first_worked()), Case::Rows, read(&[0x80])]);
    let text = answers(&script);
    assert_eq!(difference(&script, text.as_bytes()), None);
    let other = text.replace("48000", "44100");
    let named = difference(&script, other.as_bytes());
    assert_eq!(named.as_deref(), Some("case 1, of kind W"));
    assert!(difference(&script, (text.clone() + "\n").as_bytes()).is_some());
    assert!(difference(&script, &text.as_bytes()[..text.len() - 1]).is_some());
}

#[test]
fn a_case_alone_is_answered_as_among_the_others() {
    let script = script(1);
    let count = Cases::new(&script).count();
    let each = (0..count).map(|number| answers(&alone(&script, number).expect("a case")));
    assert_eq!(each.collect::<String>(), answers(&script));
    assert_eq!(alone(&script, count), None);
}

/// The records whose rows a script asks.
fn asked(script: &[u8]) -> Vec<Record> {
    let mut present = false;
    let mut held = Record::default();
    let mut asked = Vec::new();
    for case in Cases::new(script) {
        match case {
            Case::Hold { present: p, record } => (present, held) = (p, *record),
            Case::Read { room, element } => {
                let reading =
                    second::read::read(&element, present.then_some(&held), usize::from(room));
                if let Some(reading) = reading.ok().filter(|reading| reading.sent) {
                    (present, held) = (true, reading.held);
                }
            }
            Case::Rows => asked.push(held.clone()),
            _ => {}
        }
    }
    asked
}

/// Where a numLayer above 7 is looked at, docs/SCRIPT.md says no rows.
#[test]
fn rows_are_asked_only_where_they_are_clear() {
    for seed in 1..=250 {
        for record in asked(&script(seed)) {
            let programs = record
                .num_layer
                .iter()
                .take(record.num_program as usize + 1);
            assert!(programs.max() < Some(&8), "seed {seed}");
        }
    }
}

#[test]
fn five_scripts_ask_ps_over_each_configuration() {
    let scripts: Vec<Vec<u8>> = (1..=5).map(script).collect();
    let records: Vec<Record> = scripts.iter().flat_map(|script| asked(script)).collect();
    meet_ps_over_each(&records);
    assert!(scripts.iter().all(|script| two_by_ps(script) >= 5));
    let wide = |record: &Record| {
        record.streams.iter().any(|stream| {
            stream.audio.channels == 1
                && matches!(stream.audio.form, Form::SbrOnPs(_, flag) if flag > 1)
        })
    };
    assert!(records.iter().any(wide));
}
