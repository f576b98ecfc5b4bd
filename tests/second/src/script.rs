//! The cases of a script, as docs/SCRIPT.md lays them out.

use crate::record::Record;
use crate::sync::LONGEST_CAPTURE;
use crate::words::{self, WORDS};

/// A program takes no more bytes behind a size, and no more cases.
pub const MOST_BYTES: usize = LONGEST_CAPTURE + 1;
pub const MOST_CASES: usize = 1_000_000;

#[derive(Clone, Debug, PartialEq, Eq)]
pub enum Case {
    Hold {
        present: bool,
        record: Box<Record>,
    },
    Read {
        room: u16,
        element: Vec<u8>,
    },
    Rows,
    Hunt {
        start: u32,
        capture: Vec<u8>,
    },
    Write {
        send: bool,
        room: u16,
        lengths: Vec<u32>,
        payload: Vec<u8>,
        other: Vec<u8>,
    },
    Frame {
        room: u16,
        element: Vec<u8>,
    },
}

impl Case {
    pub fn letter(&self) -> char {
        match self {
            Case::Hold { .. } => 'H',
            Case::Read { .. } => 'R',
            Case::Rows => 'W',
            Case::Hunt { .. } => 'S',
            Case::Write { .. } => 'P',
            Case::Frame { .. } => 'F',
        }
    }

    pub fn put(&self, script: &mut Vec<u8>) {
        match self {
            Case::Hold { present, record } => {
                script.extend([b'H', u8::from(*present)]);
                for word in words::words(record) {
                    script.extend(word.to_be_bytes());
                }
            }
            Case::Read { room, element } => {
                script.push(b'R');
                script.extend(room.to_be_bytes());
                let size = u16::try_from(element.len()).expect("an element of two size bytes");
                script.extend(size.to_be_bytes());
                script.extend(element);
            }
            Case::Rows => script.push(b'W'),
            Case::Hunt { start, capture } => {
                script.push(b'S');
                script.extend(start.to_be_bytes());
                put_long(script, capture);
            }
            Case::Write {
                send,
                room,
                lengths,
                payload,
                other,
            } => {
                script.extend([b'P', u8::from(*send)]);
                script.extend(room.to_be_bytes());
                let count = u16::try_from(lengths.len()).expect("lengths of two count bytes");
                script.extend(count.to_be_bytes());
                for length in lengths {
                    script.extend(length.to_be_bytes());
                }
                put_long(script, payload);
                put_long(script, other);
            }
            Case::Frame { room, element } => {
                script.push(b'F');
                script.extend(room.to_be_bytes());
                put_long(script, element);
            }
        }
    }
}

fn put_long(script: &mut Vec<u8>, bytes: &[u8]) {
    assert!(bytes.len() < 1 << 24, "bytes of three size bytes");
    script.extend(&(bytes.len() as u32).to_be_bytes()[1..]);
    script.extend(bytes);
}

/// The cases of a script up to the first that is cut, too long or none at all.
pub struct Cases<'a> {
    left: &'a [u8],
    taken: usize,
}

impl<'a> Cases<'a> {
    pub fn new(script: &'a [u8]) -> Self {
        Cases {
            left: script,
            taken: 0,
        }
    }

    fn bytes(&mut self, count: usize) -> Option<&'a [u8]> {
        let (now, later) = self.left.split_at_checked(count)?;
        self.left = later;
        Some(now)
    }

    fn number(&mut self, bytes: usize) -> Option<u32> {
        let bytes = self.bytes(bytes)?;
        let value = bytes
            .iter()
            .fold(0, |value, byte| value << 8 | u32::from(*byte));
        Some(value)
    }

    fn short(&mut self) -> Option<u16> {
        Some(self.number(2)? as u16)
    }

    fn flag(&mut self) -> Option<bool> {
        match self.number(1)? {
            0 => Some(false),
            1 => Some(true),
            _ => None,
        }
    }

    fn sized(&mut self, bytes: usize) -> Option<Vec<u8>> {
        let size = self.number(bytes)? as usize;
        if size > MOST_BYTES {
            return None;
        }
        Some(self.bytes(size)?.to_vec())
    }

    fn numbers(&mut self, count: usize) -> Option<Vec<u32>> {
        (0..count).map(|_| self.number(4)).collect()
    }

    fn hold(&mut self) -> Option<Case> {
        let present = self.flag()?;
        let record = Box::new(words::record(&self.numbers(WORDS)?)?);
        Some(Case::Hold { present, record })
    }

    fn write(&mut self) -> Option<Case> {
        let send = self.flag()?;
        let room = self.short()?;
        let count = usize::from(self.short()?);
        Some(Case::Write {
            send,
            room,
            lengths: self.numbers(count)?,
            payload: self.sized(3)?,
            other: self.sized(3)?,
        })
    }

    fn case(&mut self) -> Option<Case> {
        match self.number(1)? as u8 {
            b'H' => self.hold(),
            b'R' => Some(Case::Read {
                room: self.short()?,
                element: self.sized(2)?,
            }),
            b'W' => Some(Case::Rows),
            b'S' => Some(Case::Hunt {
                start: self.number(4)?,
                capture: self.sized(3)?,
            }),
            b'P' => self.write(),
            b'F' => Some(Case::Frame {
                room: self.short()?,
                element: self.sized(3)?,
            }),
            _ => None,
        }
    }
}

impl Iterator for Cases<'_> {
    type Item = Case;

    fn next(&mut self) -> Option<Case> {
        let case = (self.taken < MOST_CASES).then(|| self.case()).flatten();
        self.taken += 1;
        if case.is_none() {
            self.left = &[];
        }
        case
    }
}
