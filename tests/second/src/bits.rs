//! Unsigned numbers in bytes, highest bit first.

pub fn bit(bytes: &[u8], place: u64) -> u64 {
    let byte = bytes[(place / 8) as usize];
    u64::from(byte >> (7 - place % 8) & 1)
}

pub fn number(bytes: &[u8], place: u64, width: u64) -> u64 {
    (place..place + width).fold(0, |value, at| value << 1 | bit(bytes, at))
}

/// How many whole bytes a number of bits takes.
pub fn bytes_for(bits: u64) -> u64 {
    bits.div_ceil(8)
}

/// Bits written one after another; the spare bits of the last byte are 0.
#[derive(Default)]
pub struct Pen {
    bytes: Vec<u8>,
    bits: u64,
}

impl Pen {
    pub fn bits(&self) -> u64 {
        self.bits
    }

    pub fn into_bytes(self) -> Vec<u8> {
        self.bytes
    }

    pub fn put(&mut self, value: u64, width: u64) {
        for shift in (0..width).rev() {
            self.put_bit(value >> shift & 1);
        }
    }

    /// The first `bits` bits of `source`.
    pub fn copy(&mut self, source: &[u8], bits: u64) {
        for place in 0..bits {
            self.put_bit(bit(source, place));
        }
    }

    /// Everything another pen wrote.
    pub fn append(&mut self, other: &Pen) {
        self.copy(&other.bytes, other.bits);
    }

    fn put_bit(&mut self, value: u64) {
        if self.bits == 8 * self.bytes.len() as u64 {
            self.bytes.push(0);
        }
        let last = self.bytes.len() - 1;
        self.bytes[last] |= (value as u8) << (7 - self.bits % 8);
        self.bits += 1;
    }
}
