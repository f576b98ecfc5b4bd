//! The sync layer: finding frames in a capture and writing one.

use crate::read::LONGEST_ELEMENT;
use crate::refusal::Refusal;

pub const LONGEST_CAPTURE: usize = 65536;
pub const HEADER: usize = 3;

#[derive(Clone, Copy, Debug, PartialEq, Eq)]
pub struct Frame {
    pub place: usize,
    pub length: usize,
}

impl Frame {
    pub fn element<'a>(&self, capture: &'a [u8]) -> &'a [u8] {
        &capture[self.place + HEADER..self.end()]
    }

    pub fn end(&self) -> usize {
        self.place + HEADER + self.length
    }
}

/// The first frame that stands at or after `start`.
pub fn hunt(capture: &[u8], start: usize) -> Result<Frame, Refusal> {
    if capture.len() > LONGEST_CAPTURE {
        return Err(Refusal::plain(20));
    }
    let mut places = start..capture.len();
    places
        .find_map(|place| frame_at(capture, place))
        .ok_or(Refusal::plain(20))
}

fn frame_at(capture: &[u8], place: usize) -> Option<Frame> {
    let header = capture.get(place..place + HEADER)?;
    if !begins_with_sync(header) {
        return None;
    }
    let length = usize::from(header[1] & 0x1F) << 8 | usize::from(header[2]);
    let frame = Frame { place, length };
    let rest = capture.get(frame.end()..)?;
    let stands = length >= 1 && (rest.is_empty() || begins_with_sync(rest));
    stands.then_some(frame)
}

fn begins_with_sync(bytes: &[u8]) -> bool {
    bytes.len() >= 2 && bytes[0] == 0x56 && bytes[1] >> 5 == 0b111
}

/// Writes the frame of an element and answers its bytes; what follows stays.
pub fn write_frame(element: &[u8], output: &mut [u8]) -> Result<usize, Refusal> {
    if element.is_empty() || element.len() > LONGEST_ELEMENT {
        return Err(Refusal::plain(2));
    }
    let size = HEADER + element.len();
    let Some(frame) = output.get_mut(..size) else {
        return Err(Refusal::plain(19));
    };
    frame[0] = 0x56;
    frame[1] = 0xE0 | (element.len() >> 8) as u8;
    frame[2] = element.len() as u8;
    frame[HEADER..].copy_from_slice(element);
    Ok(size)
}
