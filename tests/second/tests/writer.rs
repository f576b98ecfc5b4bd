//! The writer: round trips, and refusals 16 to 19 with nothing written.

mod common;

use common::{accept, concat, first_worked, held_by, Draft, CORE, PS, SBR, WORKED};
use second::bits;
use second::draw;
use second::random::Random;
use second::read::{read, Kind, Reading, MAP_NUMBERS};
use second::record::{AudioConfig, Form, Frequency, Record, Stream};
use second::refusal::Refusal;
use second::sync::write_frame;
use second::write::{write, Order};

struct Content {
    record: Record,
    lengths: Vec<u64>,
    payload: Vec<u8>,
    other: Vec<u8>,
}

impl Content {
    /// Drawn until it fits into an element.
    fn drawn(random: &mut Random) -> Self {
        loop {
            let record = draw::record(random);
            let lengths = draw::lengths(&record, random);
            let bytes: u64 = lengths.iter().sum();
            if bytes + lengths.len() as u64 + record.other_bits / 8 < 6000 {
                return Content::new(record, lengths, random);
            }
        }
    }

    fn new(record: Record, lengths: Vec<u64>, random: &mut Random) -> Self {
        let payload = random.bytes(lengths.iter().sum::<u64>() as usize);
        let other = random.bytes(record.other_bits.div_ceil(8) as usize);
        Content {
            record,
            lengths,
            payload,
            other,
        }
    }

    fn order(&self, send: bool) -> Order<'_> {
        Order {
            record: &self.record,
            send,
            lengths: &self.lengths,
            payload: &self.payload,
            other: &self.other,
        }
    }
}

fn written(order: &Order) -> Vec<u8> {
    let mut output = vec![0x5A; 9000];
    let size = write(order, &mut output).expect("a written element");
    assert!(output[size..].iter().all(|byte| *byte == 0x5A));
    output.truncate(size);
    output
}

fn refused(order: &Order, room: usize, number: u8) {
    let mut output = vec![0x5A; room];
    assert_eq!(write(order, &mut output), Err(Refusal::plain(number)));
    assert!(output.iter().all(|byte| *byte == 0x5A));
}

fn bits_of(element: &[u8], reading: &Reading, kind: Kind) -> Vec<u64> {
    let items = reading.items.iter().filter(|item| item.kind == kind);
    items
        .flat_map(|item| (item.first..item.first + item.width).map(|at| bits::bit(element, at)))
        .collect()
}

fn all_bits(bytes: &[u8], count: u64) -> Vec<u64> {
    (0..count).map(|at| bits::bit(bytes, at)).collect()
}

fn check_read_back(content: &Content, element: &[u8], held: Option<&Record>, sent: bool) {
    let reading = read(element, held, MAP_NUMBERS).expect("an element that can be read");
    assert_eq!(reading.held, content.record);
    assert_eq!(reading.sent, sent);
    let payload = all_bits(&content.payload, 8 * content.payload.len() as u64);
    assert_eq!(bits_of(element, &reading, Kind::Payload), payload);
    let other = all_bits(&content.other, content.record.other_bits);
    assert_eq!(bits_of(element, &reading, Kind::OtherData), other);
    assert!(bits_of(element, &reading, Kind::Alignment)
        .iter()
        .all(|bit| *bit == 0));
    let slots = reading
        .items
        .iter()
        .filter(|item| item.kind == Kind::Payload);
    assert_eq!(
        slots.map(|item| item.width / 8).collect::<Vec<_>>(),
        content.lengths
    );
}

#[test]
fn round_trips() {
    let mut random = Random::new(1);
    let any = held_by(first_worked());
    for _ in 0..500 {
        let content = Content::drawn(&mut random);
        let element = written(&content.order(true));
        check_read_back(&content, &element, None, true);
        check_read_back(&content, &element, Some(&any), true);
        let element = written(&content.order(false));
        check_read_back(&content, &element, Some(&content.record), false);
    }
}

#[test]
fn the_output_may_be_exactly_as_long() {
    let mut random = Random::new(2);
    for send in [true, false] {
        for _ in 0..100 {
            let content = Content::drawn(&mut random);
            let order = content.order(send);
            let element = written(&order);
            let mut exact = vec![0; element.len()];
            assert_eq!(write(&order, &mut exact), Ok(element.len()));
            assert_eq!(exact, element);
            refused(&order, element.len() - 1, 19);
            refused(&order, 0, 19);
        }
    }
}

#[test]
fn the_worked_capture_is_written() {
    let record = held_by(first_worked());
    let first = Order {
        record: &record,
        send: true,
        lengths: &[2],
        payload: &[0xAB, 0xCD],
        other: &[],
    };
    let second = Order {
        send: false,
        lengths: &[0],
        payload: &[],
        ..first
    };
    let mut capture = [0; 17];
    let size = write_frame(&written(&first), &mut capture).unwrap();
    write_frame(&written(&second), &mut capture[size..]).unwrap();
    assert_eq!(capture, WORKED);
}

#[test]
fn asc_len_has_no_fill() {
    for (asc_len, audio) in [
        (16, concat(&[&CORE])),
        (37, concat(&[&CORE, &SBR])),
        (49, concat(&[&CORE, &SBR, &PS])),
    ] {
        let draft = Draft::version1(asc_len, &audio);
        let record = accept(&draft).held;
        let order = Order {
            record: &record,
            send: true,
            lengths: &[0],
            payload: &[],
            other: &[],
        };
        assert_eq!(written(&order), draft.bytes());
    }
}

#[test]
fn spare_bits_of_other_data_are_ignored() {
    let mut record = held_by(first_worked());
    record.other_present = 1;
    record.other_bits = 3;
    let order = |other| Order {
        record: &record,
        send: true,
        lengths: &[0],
        payload: &[],
        other,
    };
    assert_eq!(
        written(&order(&[0b1010_0000])),
        written(&order(&[0b1011_1111]))
    );
}

/// Two streams of version 1, the second with a fixed slot.
fn two_streams() -> Record {
    let audio = AudioConfig {
        core_type: 2,
        frequency: Frequency::Index(3),
        channels: 2,
        form: Form::SbrOnPs(Frequency::Hertz(1), 1),
        ..AudioConfig::default()
    };
    let mut record = Record {
        version: 1,
        same_framing: 1,
        ..Record::default()
    };
    record.num_layer[0] = 1;
    record.streams[0] = Stream {
        audio,
        buffer_fullness: 255,
        ..Stream::default()
    };
    record.streams[1] = Stream {
        audio,
        frame_length_type: 1,
        frame_length: 511,
        ..Stream::default()
    };
    record
}

fn refused_16(change: impl Fn(&mut Record)) {
    let mut record = two_streams();
    assert!(record.is_sendable());
    change(&mut record);
    for send in [true, false] {
        for lengths in [&[0, 531][..], &[u64::MAX][..], &[]] {
            let order = Order {
                record: &record,
                send,
                lengths,
                payload: &[0; 531],
                other: &[],
            };
            refused(&order, 9000, 16);
            refused(&order, 0, 16);
        }
    }
}

#[test]
fn values_that_are_too_wide() {
    refused_16(|record| record.version = 2);
    refused_16(|record| record.version_a = 2);
    refused_16(|record| record.tara = 1 << 32);
    refused_16(|record| record.same_framing = 3);
    refused_16(|record| record.num_sub_frames = 64);
    refused_16(|record| record.num_program = 16);
    refused_16(|record| record.num_layer[0] = 8);
    refused_16(|record| record.streams[0].buffer_fullness = 256);
    refused_16(|record| record.streams[1].frame_length = 512);
    refused_16(|record| record.streams[0].frame_length_type = 8);
    refused_16(|record| record.streams[0].audio.frame_length_flag = 2);
    refused_16(|record| record.streams[0].audio.frequency = Frequency::Hertz(1 << 24));
    refused_16(|record| record.streams[0].audio.form = Form::SbrOnPs(Frequency::Index(0), 2));
    refused_16(|record| record.other_present = 2);
    refused_16(|record| record.crc_present = 2);
    refused_16(|record| (record.other_present, record.other_bits) = (1, 1 << 32));
    refused_16(|record| (record.crc_present, record.crc) = (1, 256));
}

#[test]
fn values_the_reader_refuses() {
    refused_16(|record| record.version_a = 1);
    refused_16(|record| record.same_framing = 0);
    refused_16(|record| {
        (record.num_program, record.num_layer) =
            (2, [7, 7, 0, 0, 0, 0, 0, 0, 0, 0, 0, 0, 0, 0, 0, 0])
    });
    for kind in [0, 5, 6, 22, 29, 31, 32] {
        refused_16(|record| record.streams[1].audio.core_type = kind);
    }
    for index in [13, 14, 15, 16, u64::MAX] {
        refused_16(|record| record.streams[0].audio.frequency = Frequency::Index(index));
        refused_16(|record| record.streams[0].audio.form = Form::Type29(Frequency::Index(index)));
        refused_16(|record| record.streams[0].audio.form = Form::SbrOn(Frequency::Index(index)));
    }
    refused_16(|record| record.streams[0].audio.frequency = Frequency::Hertz(0));
    refused_16(|record| record.streams[0].audio.form = Form::Type5(Frequency::Hertz(0)));
    for channels in [0, 8, 15, 16] {
        refused_16(|record| record.streams[1].audio.channels = channels);
    }
    refused_16(|record| record.streams[1].audio.depends_on_core_coder = 1);
    refused_16(|record| record.streams[1].audio.extension_flag = 1);
    for kind in 2..8 {
        refused_16(|record| record.streams[0].frame_length_type = kind);
    }
}

#[test]
fn values_where_none_is_sent() {
    refused_16(|record| record.streams[0].frame_length = 1);
    refused_16(|record| record.streams[1].buffer_fullness = 1);
    refused_16(|record| record.num_layer[1] = 1);
    refused_16(|record| record.num_layer[15] = 1);
    refused_16(|record| record.streams[2].audio.core_type = 1);
    refused_16(|record| record.streams[2].audio.frequency = Frequency::Index(1));
    refused_16(|record| record.streams[2].audio.frequency = Frequency::Hertz(0));
    refused_16(|record| record.streams[15].audio.form = Form::SbrOff);
    refused_16(|record| record.streams[15].frame_length_type = 1);
    refused_16(|record| record.other_bits = 1);
    refused_16(|record| record.crc = 1);
}

fn version0(record: &mut Record, form: Form) {
    record.version = 0;
    record.streams[0].audio.form = form;
    record.streams[1].audio.form = form;
}

#[test]
fn version_0_has_neither_a_tail_nor_tara() {
    refused_16(|record| version0(record, Form::SbrOff));
    refused_16(|record| version0(record, Form::SbrOn(Frequency::Index(0))));
    refused_16(|record| version0(record, Form::SbrOnPs(Frequency::Index(0), 0)));
    for form in [
        Form::None,
        Form::Type5(Frequency::Index(0)),
        Form::Type29(Frequency::Index(0)),
    ] {
        let mut record = two_streams();
        version0(&mut record, form);
        assert!(record.is_sendable());
        record.tara = 1;
        assert!(!record.is_sendable());
    }
}

fn refused_17(lengths: &[u64], payload: usize, other: usize) {
    let mut record = two_streams();
    record.other_present = 1;
    record.other_bits = 9;
    let (payload, other) = (vec![0; payload], vec![0; other]);
    for send in [true, false] {
        let order = Order {
            record: &record,
            send,
            lengths,
            payload: &payload,
            other: &other,
        };
        refused(&order, 9000, 17);
        refused(&order, 0, 17);
    }
}

#[test]
fn content_that_does_not_fit_the_record() {
    refused_17(&[], 0, 2);
    refused_17(&[0], 0, 2);
    refused_17(&[0, 531, 0], 531, 2);
    refused_17(&[0, 531, 0, 531], 1062, 2);
    refused_17(&[0, 530], 530, 2);
    refused_17(&[0, 532], 532, 2);
    refused_17(&[1, 531], 531, 2);
    refused_17(&[0, 531], 532, 2);
    refused_17(&[0, 531], 0, 2);
    refused_17(&[0, 531], 531, 1);
    refused_17(&[0, 531], 531, 3);
    refused_17(&[0, 531], 531, 0);
    // Too long in all, and yet 17 comes first.
    refused_17(&[9000, 531], 9530, 2);
}

#[test]
fn lengths_whose_sum_overflows() {
    refused_17(&[u64::MAX, 531], 530, 2);
    refused_17(&[u64::MAX - 530, 531], 0, 2);
    let mut record = two_streams();
    record.num_layer[0] = 0;
    record.streams[1] = Stream::default();
    record.num_sub_frames = 3;
    for lengths in [[1 << 62; 4], [u64::MAX; 4], [u64::MAX, 1, 0, 0]] {
        let order = Order {
            record: &record,
            send: true,
            lengths: &lengths,
            payload: &[],
            other: &[],
        };
        refused(&order, 9000, 17);
    }
}

#[test]
fn elements_that_are_too_long() {
    let record = held_by(first_worked());
    for (length, fits) in [(8158, true), (8159, false), (20000, false)] {
        let payload = vec![0xFF; length];
        let lengths = [length as u64];
        let order = Order {
            record: &record,
            send: false,
            lengths: &lengths,
            payload: &payload,
            other: &[],
        };
        if fits {
            assert_eq!(written(&order).len(), 8191);
        } else {
            refused(&order, 30000, 18);
            refused(&order, 0, 18);
        }
    }
}

#[test]
fn other_data_that_is_too_long() {
    let mut record = held_by(first_worked());
    record.other_present = 1;
    // A flag, a length byte and 8191 * 8 - 9 bits.
    for (other_bits, fits) in [(65519, true), (65520, false), (70000, false)] {
        record.other_bits = other_bits;
        let other = vec![0xFF; other_bits.div_ceil(8) as usize];
        let order = Order {
            record: &record,
            send: false,
            lengths: &[0],
            payload: &[],
            other: &other,
        };
        if fits {
            assert_eq!(written(&order).len(), 8191);
            refused(&order, 8190, 19);
        } else {
            refused(&order, 30000, 18);
        }
    }
}

#[test]
fn size_plays_no_part_in_16() {
    let mut record = held_by(first_worked());
    record.other_present = 1;
    record.other_bits = 0xFFFF_FFFF;
    assert!(record.is_sendable());
    let order = Order {
        record: &record,
        send: true,
        lengths: &[0],
        payload: &[],
        other: &[0; 8192],
    };
    refused(&order, 9000, 17);
}
