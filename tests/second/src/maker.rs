//! Makes scripts: every kind of case from a seed.

use crate::broken::{self, Way};
use crate::cases::{self, framed, good, good_of, Good, LONGEST_SLOT};
use crate::damage::{self, REFUSED_BY};
use crate::layout::lay_out;
use crate::random::Random;
use crate::read::{read, LONGEST_ELEMENT, MAP_NUMBERS};
use crate::record::{Record, LAYERS, PROGRAMS};
use crate::script::Case;
use crate::sync::{HEADER, LONGEST_CAPTURE};
use crate::write::{write, Order};

const ENOUGH: u16 = MAP_NUMBERS as u16;

pub fn script(seed: u64) -> Vec<u8> {
    let mut maker = Maker {
        script: Vec::new(),
        random: Random::new(seed),
    };
    maker.nothing_held();
    let mut groups = groups();
    while !groups.is_empty() {
        let place = maker.random.below(groups.len() as u64) as usize;
        maker.group(groups.swap_remove(place));
    }
    maker.script
}

#[derive(Clone, Copy)]
enum Group {
    Broken(Way),
    Spoiled(usize),
    ShortAscLen,
    Reads,
    Rooms,
    Holds,
    Writes,
    WrongWrites,
    HugeLengths,
    Hunts,
    LongCaptures,
    Frames,
    LongFrames,
    LongReads,
    LongWrites,
}

/// All groups of a script; their order is drawn.
fn groups() -> Vec<Group> {
    let mut groups: Vec<Group> = broken::ways().into_iter().map(Group::Broken).collect();
    groups.extend((0..REFUSED_BY.len()).map(Group::Spoiled));
    for (group, times) in [
        (Group::ShortAscLen, 6),
        (Group::Reads, 12),
        (Group::Rooms, 2),
        (Group::Holds, 3),
        (Group::Writes, 6),
        (Group::WrongWrites, 3),
        (Group::HugeLengths, 2),
        (Group::Hunts, 5),
        (Group::LongCaptures, 1),
        (Group::Frames, 2),
        (Group::LongFrames, 1),
        (Group::LongReads, 1),
        (Group::LongWrites, 1),
    ] {
        groups.extend(vec![group; times]);
    }
    groups
}

/// What a write is to carry besides the held record.
#[derive(Clone)]
struct Content {
    lengths: Vec<u32>,
    payload: Vec<u8>,
    other: Vec<u8>,
}

struct Maker {
    script: Vec<u8>,
    random: Random,
}

impl Maker {
    fn group(&mut self, group: Group) {
        match group {
            Group::Broken(way) => self.broken(way),
            Group::Spoiled(field) => self.spoiled(field),
            Group::ShortAscLen => self.short_asc_len(),
            Group::Reads => self.reads(),
            Group::Rooms => self.rooms(),
            Group::Holds => self.holds(),
            Group::Writes => self.writes(),
            Group::WrongWrites => self.wrong_writes(),
            Group::HugeLengths => self.huge_lengths(),
            Group::Hunts => self.hunts(),
            Group::LongCaptures => self.long_captures(),
            Group::Frames => self.frames(),
            Group::LongFrames => self.long_frames(),
            Group::LongReads => self.long_reads(),
            Group::LongWrites => self.long_writes(),
        }
    }

    fn put(&mut self, case: Case) {
        case.put(&mut self.script);
    }

    fn hold(&mut self, present: bool, record: &Record) {
        let record = Box::new(record.clone());
        self.put(Case::Hold { present, record });
    }

    fn read(&mut self, room: u16, element: Vec<u8>) {
        self.put(Case::Read { room, element });
    }

    fn hunt(&mut self, start: u32, capture: &[u8]) {
        let capture = capture.to_vec();
        self.put(Case::Hunt { start, capture });
    }

    fn write(&mut self, send: bool, room: u16, content: &Content) {
        let Content {
            lengths,
            payload,
            other,
        } = content.clone();
        self.put(Case::Write {
            send,
            room,
            lengths,
            payload,
            other,
        });
    }

    fn frame(&mut self, room: usize, element: &[u8]) {
        let (room, element) = (room as u16, element.to_vec());
        self.put(Case::Frame { room, element });
    }

    fn room(&mut self) -> u16 {
        let room = ENOUGH;
        self.random.pick(&[room, room, room, room + 32, room + 1])
    }

    fn coin(&mut self) -> bool {
        self.random.once_in(2)
    }

    /// A good element with no long slots, mostly.
    fn small(&mut self) -> Good {
        loop {
            let good = good(&mut self.random);
            let bytes: u64 = good.lengths.iter().sum();
            if bytes + good.record.other_bits / 8 < 600 && good.lengths.len() < 200 {
                return good;
            }
        }
    }

    /// An element that takes over the record, where the draw allows it.
    fn follow(&mut self, record: &Record) {
        if let Some(good) = good_of(record.clone(), 2000, false, &mut self.random) {
            let room = self.room();
            self.read(room, good.sheet.bytes());
        }
    }

    fn content(&mut self, good: &Good) -> Content {
        let bytes: u64 = good.lengths.iter().sum();
        let other = good.record.other_bits.div_ceil(8);
        Content {
            lengths: good.lengths.iter().map(|length| *length as u32).collect(),
            payload: self.random.bytes(bytes as usize),
            other: self.random.bytes(other as usize),
        }
    }

    /// Before any configuration: a record of zeros that isn't present.
    fn nothing_held(&mut self) {
        self.put(Case::Rows);
        self.read(ENOUGH, vec![0x80, 0x00]);
        let good = self.small();
        let content = self.content(&good);
        self.write(true, 9000, &content);
        self.read(ENOUGH, good.sheet.bytes());
        self.follow(&good.record);
        self.put(Case::Rows);
    }

    /// A held record that 16 refuses: nothing is held, nothing is written.
    fn broken(&mut self, way: Way) {
        let (good, record) = loop {
            let good = self.small();
            let mut record = good.record.clone();
            way(&mut record, &mut self.random);
            if !record.is_sendable() {
                break (good, record);
            }
        };
        self.hold(true, &record);
        let element = lay_out(&good.record, false, &good.lengths, &mut self.random);
        self.read(ENOUGH, element.bytes());
        if rows_are_clear(&record) {
            self.put(Case::Rows);
        }
        let mut content = self.content(&good);
        if self.random.once_in(4) {
            content.lengths.push(0);
        }
        let (send, room) = (self.coin(), self.random.pick(&[9000, 9000, 0]));
        self.write(send, room, &content);
        if self.random.once_in(4) {
            self.read(ENOUGH, good.sheet.bytes());
            self.follow(&good.record);
        }
    }

    /// A field with a value out of range, and what is still held afterwards.
    fn spoiled(&mut self, field: usize) {
        let first = self.small();
        self.read(ENOUGH, first.sheet.bytes());
        let name = REFUSED_BY[field].0;
        for _ in 0..2 {
            let spoiled = loop {
                let sheet = self.small().sheet;
                if let Some(spoiled) = damage::spoil(&sheet, name, &mut self.random) {
                    break spoiled.sheet;
                }
            };
            self.read(ENOUGH, spoiled.bytes());
        }
        self.follow(&first.record);
    }

    /// An ascLen that a field passes.
    fn short_asc_len(&mut self) {
        let element = loop {
            let sheet = self.small().sheet;
            if let Some(spoiled) = damage::change_asc_len(&sheet, &mut self.random) {
                let element = spoiled.sheet.bytes();
                if read(&element, None, MAP_NUMBERS).is_err_and(|refusal| refusal.number == 10) {
                    break element;
                }
            }
        };
        self.read(ENOUGH, element);
    }

    fn reads(&mut self) {
        let good = good(&mut self.random);
        let room = self.room();
        let sent = !self.random.once_in(5);
        if sent {
            self.read(room, good.sheet.bytes());
        }
        // What an earlier group left may have rows that aren't clear.
        if self.coin() && sent {
            self.put(Case::Rows);
        }
        self.follow(&good.record);
        for _ in 0..self.random.between(2, 5) {
            let element = cases::damaged(&good.sheet, &mut self.random);
            let room = self.room();
            self.read(room, element);
        }
        for _ in 0..2 {
            if let Some(spoiled) = damage::change_asc_len(&good.sheet, &mut self.random) {
                self.read(ENOUGH, spoiled.sheet.bytes());
            }
        }
        self.follow(&good.record);
    }

    /// Maps too short, before anything else is looked at, and long enough; an
    /// element with bytes added, and cut.
    fn rooms(&mut self) {
        let good = self.small();
        let any = self.random.below(4367) as u16;
        for room in [0, 4367, 4368, 4400, any] {
            self.read(room, good.sheet.bytes());
        }
        self.read(4367, Vec::new());
        self.read(0, vec![0; LONGEST_ELEMENT + 1]);
        self.read(4368, Vec::new());
        let longer = damage::add_bytes(&good.sheet.bytes(), &mut self.random);
        self.read(4368, longer);
        let shorter = damage::cut(&good.sheet.bytes(), &mut self.random);
        self.read(4368, shorter);
        self.follow(&good.record);
    }

    /// Records lent as held, present or not, with their values at the edges.
    fn holds(&mut self) {
        let good = self.small();
        let mut record = good.record.clone();
        let element = lay_out(&record, false, &good.lengths, &mut self.random).bytes();
        for present in [true, false] {
            self.hold(present, &record);
            self.read(ENOUGH, element.clone());
            self.put(Case::Rows);
        }
        record.other_present = 1;
        record.other_bits = self.random.pick(&[0xFFFF_FFFF, 0x8000_0000, 70_000]);
        self.hold(true, &record);
        self.read(ENOUGH, element);
        let mut content = self.content(&good);
        content.other = self.random.bytes(3);
        self.write(true, 9000, &content);
    }

    /// Outputs one byte too short, just right and longer.
    fn writes(&mut self) {
        let good = self.small();
        let content = self.content(&good);
        if self.coin() {
            let present = self.coin();
            self.hold(present, &good.record);
        } else {
            self.read(ENOUGH, good.sheet.bytes());
        }
        for send in [true, false] {
            let size = written(&good.record, send, &content) as u16;
            let more = size + self.random.between(1, 40) as u16;
            for room in [size - 1, size, more] {
                self.write(send, room, &content);
            }
        }
        let send = self.coin();
        self.write(send, 0, &content);
    }

    /// Lengths, payload or other data that don't fit the record.
    fn wrong_writes(&mut self) {
        let good = self.small();
        self.hold(true, &good.record);
        let content = self.content(&good);
        let changes: [fn(&mut Content, &mut Random); 9] = [
            |content, _| content.lengths.clear(),
            |content, _| content.lengths.push(0),
            |content, _| drop_last(&mut content.lengths),
            |content, _| content.payload.push(7),
            |content, _| drop_last(&mut content.payload),
            |content, _| content.other.push(7),
            |content, _| drop_last(&mut content.other),
            // A fixed slot of another size, where it is one; the sum fits.
            |content, random| {
                let slot = random.below(content.lengths.len() as u64) as usize;
                content.lengths[slot] += 1;
                content.payload.push(7);
            },
            |content, _| content.lengths.extend_from_within(..),
        ];
        for change in changes {
            let mut content = content.clone();
            change(&mut content, &mut self.random);
            let (send, room) = (self.coin(), self.random.pick(&[9000, 9000, 0]));
            self.write(send, room, &content);
        }
    }

    /// Lengths whose sum passes 32 bits, fitting the payload in the low ones.
    fn huge_lengths(&mut self) {
        let mut record = cases::one_stream(&mut self.random);
        record.num_sub_frames = self.random.pick(&[1, 3, 63]);
        self.hold(true, &record);
        let count = record.num_sub_frames as usize + 1;
        let mut rolled = vec![0; count];
        rolled[..2].copy_from_slice(&[0xFFFF_FFFF, 1]);
        let mut halves = vec![0; count];
        halves[..2].copy_from_slice(&[0x8000_0000, 0x8000_0000]);
        let mut bits = vec![0; count];
        bits[0] = 0x2000_0000;
        for lengths in [rolled, halves, bits, vec![0xFFFF_FFFF; count]] {
            let sum = lengths.iter().fold(0, |sum: u32, l| sum.wrapping_add(*l));
            let payload = vec![0; if sum < 100 { sum as usize } else { 0 }];
            let other = Vec::new();
            let content = Content {
                lengths,
                payload,
                other,
            };
            let send = self.coin();
            self.write(send, 9000, &content);
        }
    }

    /// Starts inside, at and past the end of short captures.
    fn hunts(&mut self) {
        let mut capture = Vec::new();
        for _ in 0..self.random.between(1, 5) {
            if self.random.once_in(3) {
                capture.extend(cases::junk(&mut self.random));
            }
            let size = self.random.between(1, 30) as usize;
            let element = self.random.bytes(size);
            capture.extend(framed(&element));
        }
        match self.random.below(6) {
            0 => capture.extend(cases::junk(&mut self.random)),
            1 => capture.push(0x56),
            2 => capture.extend([0x56, 0xE0]),
            3 => capture.extend([0x56, 0xE0, 0x00]),
            4 => drop_last(&mut capture),
            _ => {}
        }
        let size = capture.len() as u32;
        let inside = self.random.below(u64::from(size) + 1) as u32;
        let far = self.random.between(u64::from(size) + 1, 0xFFFF_FFFF) as u32;
        let far = self.random.pick(&[far, 0xFFFF_FFFF, 0x8000_0000, 0x1_0000]);
        for start in [0, 1, inside / 2, inside, size.saturating_sub(4)] {
            self.hunt(start, &capture);
        }
        for start in [size, size + 1, far] {
            self.hunt(start, &capture);
        }
    }

    /// The longest capture, its last bytes a frame, and one byte more.
    fn long_captures(&mut self) {
        let last = framed(&[0x80, 0x00]);
        let end = LONGEST_CAPTURE - last.len();
        let mut capture = vec![0; end];
        capture.extend(&last);
        let start = self.random.below(end as u64) as usize;
        self.hunt(start as u32, &capture);
        let element = self.random.bytes(30);
        let frame = framed(&element);
        capture[..frame.len()].copy_from_slice(&frame);
        capture[frame.len()..frame.len() + 2].copy_from_slice(&[0x56, 0xE0]);
        self.hunt(0, &capture);
        capture.push(0x56);
        self.hunt(0, &capture);
        self.hunt(0xFFFF_FFFF, &capture);
        self.hunt(0, &[]);
        self.hunt(0xFFFF_FFFF, &[]);
    }

    fn frames(&mut self) {
        let size = self.random.between(1, 300) as usize;
        for size in [0, 1, size] {
            let element = self.random.bytes(size);
            for room in [0, HEADER + size - 1, HEADER + size, HEADER + size + 9] {
                self.frame(room, &element);
            }
        }
    }

    fn long_frames(&mut self) {
        let mut element = self.random.bytes(LONGEST_ELEMENT);
        for room in [8193, 8194, 8200] {
            self.frame(room, &element);
        }
        element.push(7);
        for room in [0, 8195, 9000] {
            self.frame(room, &element);
        }
    }

    /// Elements of 8191 and 8192 bytes, and one that fills the map.
    fn long_reads(&mut self) {
        let record = cases::one_stream(&mut self.random);
        self.hold(true, &record);
        let sheet = lay_out(&record, false, &[LONGEST_SLOT], &mut self.random);
        let mut element = sheet.bytes();
        self.read(ENOUGH, element.clone());
        element.push(0);
        self.read(ENOUGH, element);
        let element = self.random.bytes(LONGEST_ELEMENT);
        self.read(ENOUGH, element);
        let full = cases::full_map(&mut self.random);
        for room in [4367, 4368, 4400] {
            self.read(room, full.clone());
        }
    }

    /// Writes that come to 8191 bytes, and to more.
    fn long_writes(&mut self) {
        let mut record = cases::one_stream(&mut self.random);
        self.hold(true, &record);
        for length in [LONGEST_SLOT, LONGEST_SLOT + 1, 20_000] {
            let content = Content {
                lengths: vec![length as u32],
                payload: self.random.bytes(length as usize),
                other: Vec::new(),
            };
            for room in [LONGEST_ELEMENT as u16 - 1, LONGEST_ELEMENT as u16] {
                self.write(false, room, &content);
            }
            self.write(true, 30_000, &content);
        }
        record.other_present = 1;
        // A flag, a length byte and 8191 * 8 - 9 bits; then one bit more.
        for bits in [65_519, 65_520] {
            record.other_bits = bits;
            self.hold(false, &record);
            let content = Content {
                lengths: vec![0],
                payload: Vec::new(),
                other: self.random.bytes(bits.div_ceil(8) as usize),
            };
            for room in [LONGEST_ELEMENT as u16 - 1, LONGEST_ELEMENT as u16] {
                self.write(false, room, &content);
            }
        }
    }
}

fn drop_last<T>(list: &mut Vec<T>) {
    list.truncate(list.len().saturating_sub(1));
}

/// How long the element comes to be.
fn written(record: &Record, send: bool, content: &Content) -> usize {
    let lengths: Vec<u64> = content.lengths.iter().map(|l| u64::from(*l)).collect();
    let order = Order {
        record,
        send,
        lengths: &lengths,
        payload: &content.payload,
        other: &content.other,
    };
    write(&order, &mut [0; LONGEST_ELEMENT]).expect("an element that can be written")
}

/// Where no program has more than eight layers, docs/SCRIPT.md says which rows
/// a record has, also one that 16 refuses.
fn rows_are_clear(record: &Record) -> bool {
    let programs = (record.num_program as usize)
        .saturating_add(1)
        .min(PROGRAMS);
    record.num_layer[..programs]
        .iter()
        .all(|last| *last < LAYERS as u64)
}
