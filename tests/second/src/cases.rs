//! Makes captures of good and damaged elements, junk and false syncs.

use crate::capture::Capture;
use crate::damage;
use crate::draw;
use crate::layout::{lay_out, Name, Sheet};
use crate::random::Random;
use crate::read::LONGEST_ELEMENT;
use crate::record::{Record, Stream, LAYERS};
use crate::rows;
use crate::sync::{write_frame, HEADER, LONGEST_CAPTURE};

/// The one slot that makes an element of one stream as long as can be, when no
/// configuration is sent: a byte of flag and alignment, 32 of length.
pub const LONGEST_SLOT: u64 = 8158;

pub fn capture(seed: u64) -> Vec<u8> {
    let mut random = Random::new(seed);
    let size = size(&mut random);
    let mut tape = Tape {
        bytes: Vec::new(),
        size,
        random,
    };
    start(&mut tape);
    while tape.group().is_some() {}
    tape.finish();
    tape.bytes
}

/// How often the elements of a capture are accepted (at 0) or refused.
pub fn counts(capture: &[u8]) -> [usize; 21] {
    let mut counts = [0; 21];
    for step in Capture::new(capture) {
        let number = step.outcome.err().map_or(0, |refusal| refusal.number);
        counts[usize::from(number)] += 1;
    }
    counts
}

/// How many rows of a capture's summary have two channels by PS over one.
pub fn two_by_ps(capture: &[u8]) -> usize {
    Capture::new(capture)
        .filter(|step| step.changed)
        .filter_map(|step| step.outcome.ok())
        .map(|reading| rows::two_by_ps(&reading.held))
        .sum()
}

/// A good element: its record, its slot lengths and its cells.
pub struct Good {
    pub record: Record,
    pub lengths: Vec<u64>,
    pub sheet: Sheet,
}

pub fn good(random: &mut Random) -> Good {
    let most = random.pick(&[20, 20, 60, 60, 60, 250, 250, 250, 1500, 8000]);
    loop {
        let record = draw::record(random);
        if let Some(good) = good_of(record, most, true, random) {
            return good;
        }
    }
}

/// An element of the record with at most `most` bytes, if the draw allows it.
pub fn good_of(record: Record, most: u64, send: bool, random: &mut Random) -> Option<Good> {
    let lengths = draw::lengths(&record, random);
    if lengths.iter().sum::<u64>() + lengths.len() as u64 + record.other_bits / 8 > most {
        return None;
    }
    let sheet = lay_out(&record, send, &lengths, random);
    let fits = sheet.first_bit(sheet.cells.len()) <= 8 * LONGEST_ELEMENT;
    fits.then_some(Good {
        record,
        lengths,
        sheet,
    })
}

fn size(random: &mut Random) -> usize {
    match random.below(8) {
        0 => random.below(300) as usize,
        1 => random.below(9000) as usize,
        _ => LONGEST_CAPTURE,
    }
}

/// A capture being made; None tells that it is full.
struct Tape {
    bytes: Vec<u8>,
    size: usize,
    random: Random,
}

impl Tape {
    fn left(&self) -> usize {
        self.size - self.bytes.len()
    }

    /// Damage may leave an element too long for any frame: it is left out.
    fn frame(&mut self, element: &[u8]) -> Option<()> {
        if element.len() > LONGEST_ELEMENT {
            return Some(());
        }
        if HEADER + element.len() > self.left() {
            return None;
        }
        self.bytes.extend(framed(element));
        Some(())
    }

    fn junk(&mut self) -> Option<()> {
        let junk = junk(&mut self.random);
        if junk.len() > self.left() {
            return None;
        }
        self.bytes.extend(junk);
        Some(())
    }

    /// A good element, others that take over its configuration, and damaged
    /// ones. Without the good one the others meet an older configuration.
    fn group(&mut self) -> Option<()> {
        let good = good(&mut self.random);
        if !self.random.once_in(5) {
            self.frame(&good.sheet.bytes())?;
        }
        for _ in 0..self.random.below(3) {
            self.follow(&good.record)?;
        }
        for _ in 0..self.random.between(2, 6) {
            let damaged = damaged(&good.sheet, &mut self.random);
            self.frame(&damaged)?;
        }
        self.follow(&good.record)?;
        if self.random.once_in(6) {
            self.junk()?;
        }
        Some(())
    }

    fn follow(&mut self, record: &Record) -> Option<()> {
        let Some(good) = good_of(record.clone(), 2000, false, &mut self.random) else {
            return Some(());
        };
        let bytes = good.sheet.bytes();
        let element = match self.random.below(8) {
            0 => damage::cut(&bytes, &mut self.random),
            1 => damage::turn_bit(&bytes, usize::MAX, &mut self.random),
            2 => damage::add_bytes(&bytes, &mut self.random),
            _ => bytes,
        };
        self.frame(&element)
    }

    /// Ends with the last frame, in the middle of one, or with junk.
    fn finish(&mut self) {
        let left = self.left();
        match self.random.below(5) {
            0 => {}
            1 => self.bytes.extend(&junk(&mut self.random)[..left.min(1)]),
            2 => self.bytes.extend(junk(&mut self.random).iter().take(left)),
            3 => self.fill_with_frame(left),
            _ => {
                let element = good(&mut self.random).sheet.bytes();
                let frame = framed(&element);
                let end = self.random.between(1, frame.len() as u64 - 1) as usize;
                self.bytes.extend(&frame[..end.min(left)]);
            }
        }
    }

    fn fill_with_frame(&mut self, left: usize) {
        if (HEADER + 1..=HEADER + LONGEST_ELEMENT).contains(&left) {
            let element = self.random.bytes(left - HEADER);
            self.bytes.extend(framed(&element));
        }
    }
}

/// Elements before any configuration, and now and then the longest cases.
fn start(tape: &mut Tape) -> Option<()> {
    if tape.random.once_in(3) {
        tape.junk()?;
    }
    for _ in 0..tape.random.below(8) {
        let record = good(&mut tape.random).record;
        tape.follow(&record)?;
    }
    if tape.random.once_in(3) {
        longest(tape)?;
    }
    if tape.random.once_in(3) {
        fullest(tape)?;
    }
    Some(())
}

fn longest(tape: &mut Tape) -> Option<()> {
    let record = one_stream(&mut tape.random);
    let first = lay_out(&record, true, &[0], &mut tape.random);
    let longest = lay_out(&record, false, &[LONGEST_SLOT], &mut tape.random);
    tape.frame(&first.bytes())?;
    tape.frame(&longest.bytes())
}

/// One stream of slots with a length each, one subframe, no other data.
pub fn one_stream(random: &mut Random) -> Record {
    let mut record = draw::record(random);
    record.num_sub_frames = 0;
    record.num_program = 0;
    record.num_layer = Default::default();
    record.streams[1..].fill(Stream::default());
    make_variable(&mut record.streams[0]);
    record.other_present = 0;
    record.other_bits = 0;
    record
}

fn fullest(tape: &mut Tape) -> Option<()> {
    let element = full_map(&mut tape.random);
    tape.frame(&element)
}

/// An element of 16 streams in 64 subframes with other data: the map is full.
pub fn full_map(random: &mut Random) -> Vec<u8> {
    let mut record = draw::record(random);
    record.num_sub_frames = 63;
    record.num_program = 1;
    record.num_layer = Default::default();
    record.num_layer[..2].fill(LAYERS as u64 - 1);
    make_variable(&mut record.streams[0]);
    let first = record.streams[0];
    record.streams.fill(first);
    record.other_present = 1;
    let lengths: Vec<u64> = (0..record.slot_count()).map(|_| random.below(3)).collect();
    lay_out(&record, true, &lengths, random).bytes()
}

fn make_variable(stream: &mut Stream) {
    stream.frame_length_type = 0;
    stream.frame_length = 0;
}

pub fn framed(element: &[u8]) -> Vec<u8> {
    let mut frame = vec![0; HEADER + element.len()];
    write_frame(element, &mut frame).expect("an element of 1 to 8191 bytes");
    frame
}

/// Bytes with syncs among them that mostly begin no frame.
pub fn junk(random: &mut Random) -> Vec<u8> {
    let count = random.between(1, 60) as usize;
    let mut junk = random.bytes(count);
    for place in 0..junk.len() {
        if random.once_in(12) {
            let sync = [0x56, 0xE0, random.below(24) as u8];
            let end = junk.len().min(place + sync.len());
            junk[place..end].copy_from_slice(&sync[..end - place]);
        }
    }
    junk
}

/// The bytes of a good element, damaged in one way or two.
pub fn damaged(sheet: &Sheet, random: &mut Random) -> Vec<u8> {
    let bytes = sheet.bytes();
    let header = sheet.first_bit(sheet.header_cells());
    match random.below(15) {
        0 => damage::cut(&bytes, random),
        1 => damage::cut_before(&bytes, header / 8 + 1, random),
        2 => damage::turn_bit(&bytes, usize::MAX, random),
        3 | 4 => damage::turn_bit(&bytes, header, random),
        5 => damage::add_bytes(&bytes, random),
        6 | 7 => spoiled_asc_len(sheet, random),
        8 => random.bytes(bytes.len().min(100)),
        9 => damage::end_together(sheet, random).unwrap_or(bytes),
        _ => spoiled_field(sheet, random),
    }
}

fn spoiled_asc_len(sheet: &Sheet, random: &mut Random) -> Vec<u8> {
    damage::change_asc_len(sheet, random)
        .map_or_else(|| sheet.bytes(), |spoiled| maybe_cut(spoiled, random))
}

fn spoiled_field(sheet: &Sheet, random: &mut Random) -> Vec<u8> {
    let any = random.pick(&damage::REFUSED_BY).0;
    let name = random.pick(&[any, any, any, Name::OtherMore, Name::Layers, Name::Hertz]);
    match damage::spoil(sheet, name, random) {
        Some(spoiled) => maybe_cut(spoiled, random),
        None => spoiled_field(sheet, random),
    }
}

fn maybe_cut(spoiled: damage::Spoiled, random: &mut Random) -> Vec<u8> {
    let bytes = spoiled.sheet.bytes();
    if random.once_in(4) {
        let bit = spoiled.sheet.first_bit(spoiled.cell);
        return damage::cut_after(&bytes, bit, random);
    }
    bytes
}
