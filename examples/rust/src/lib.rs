//! Safe functions over include/schilfauge.h: slices bring their own counts, arrays have their size in the type, and a
//! refusal is an error.

// The header asks that nothing lent is null, that it is as long as it says, and that what is written overlaps with
// nothing else lent. Each call below lends whole slices and arrays, none of them twice, so it is sound.
mod c {
    use super::HELD_WORDS;

    extern "C" {
        pub fn schilf_hunt(
            capture: *const u8,
            count: usize,
            start: usize,
            found: *mut [usize; 2],
        ) -> usize;
        pub fn schilf_read(
            element: *const u8,
            element_count: usize,
            held: *mut [u32; HELD_WORDS],
            map: *mut u32,
            map_count: usize,
            answer: *mut [usize; 4],
        ) -> usize;
        pub fn schilf_row(
            record: *const u32,
            program: u32,
            layer: u32,
            row: *mut [i64; 9],
        ) -> usize;
        pub fn schilf_write(
            record: *const u32,
            send: bool,
            lengths: *const u32,
            lengths_count: usize,
            payload: *const u8,
            payload_count: usize,
            other: *const u8,
            other_count: usize,
            out: *mut u8,
            out_count: usize,
            written: *mut usize,
        ) -> usize;
        pub fn schilf_frame(
            element: *const u8,
            count: usize,
            out: *mut u8,
            out_count: usize,
            written: *mut usize,
        ) -> usize;
    }
}

pub const CAPTURE_BYTES: usize = 65536;
pub const MAP_WORDS: usize = 4368;

// The words of a record, as include/schilfauge.h builds them up, and those held: a word more, whether one is.
const PROGRAMS: usize = 16;
const STREAMS: usize = 16;
const STREAM_WORDS: usize = 14;
const RECORD_LAYERS: usize = 10;
const RECORD_STREAMS: usize = RECORD_LAYERS + PROGRAMS;
const RECORD_WORDS: usize = RECORD_STREAMS + STREAMS * STREAM_WORDS;
const HELD_WORDS: usize = RECORD_WORDS + 1;

/// A refusal: its number, and of an element the bit where the reading stopped and the fields read by then.
#[derive(Clone, Copy, Debug, PartialEq, Eq)]
pub struct Refusal {
    pub number: usize,
    pub place: usize,
    pub fields: usize,
}

impl Refusal {
    fn unread(number: usize) -> Refusal {
        Refusal {
            number,
            place: 0,
            fields: 0,
        }
    }
}

/// An accepted element; its items stand in the map, four words each.
#[derive(Clone, Copy, Debug, PartialEq, Eq)]
pub struct Accepted {
    pub items: usize,
    pub fields: usize,
    pub sent: bool,
}

/// What a record says of one stream. SBR and PS are none where the configuration sent no flag; channels are those of
/// the output, two where PS is true over channelConfiguration 1.
#[derive(Clone, Copy, Debug, PartialEq, Eq)]
pub struct Row {
    pub stream: i64,
    pub core: i64,
    pub rate: i64,
    pub output: i64,
    pub sbr: Option<bool>,
    pub ps: Option<bool>,
    pub channels: i64,
}

/// The configuration held: the words of a record, and 1 where it is present.
#[derive(Clone, Debug, PartialEq, Eq)]
pub struct Held([u32; HELD_WORDS]);

/// The first frame at or after the start: its element, and the place behind it, where the next hunt starts.
pub fn hunt(capture: &[u8], start: usize) -> Option<(&[u8], usize)> {
    let mut found = [0; 2];
    let number = unsafe { c::schilf_hunt(capture.as_ptr(), capture.len(), start, &mut found) };
    let [place, size] = found;
    let end = place + 3 + size;
    (number == 0).then(|| (&capture[place + 3..end], end))
}

impl Held {
    pub fn nothing() -> Held {
        Held([0; HELD_WORDS])
    }

    /// Reads one element, and holds the configuration that it sends where it is accepted.
    pub fn read(&mut self, element: &[u8], map: &mut [u32]) -> Result<Accepted, Refusal> {
        let mut answer = [0; 4];
        let number = unsafe {
            c::schilf_read(
                element.as_ptr(),
                element.len(),
                &mut self.0,
                map.as_mut_ptr(),
                map.len(),
                &mut answer,
            )
        };
        let [items, place, fields, sent] = answer;
        match number {
            0 => Ok(Accepted {
                items,
                fields,
                sent: sent == 1,
            }),
            _ => Err(Refusal {
                number,
                place,
                fields,
            }),
        }
    }

    /// The row of a layer of a program, where the record held has one.
    pub fn row(&self, program: u32, layer: u32) -> Option<Row> {
        let mut row = [0; 9];
        let number = unsafe { c::schilf_row(self.0.as_ptr(), program, layer, &mut row) };
        let [stream, _, _, core, rate, output, sbr, ps, channels] = row;
        let flag = |value: i64| (value >= 0).then_some(value == 1);
        (number == 0 && stream != 255).then(|| Row {
            stream,
            core,
            rate,
            output,
            sbr: flag(sbr),
            ps: flag(ps),
            channels,
        })
    }
    /// Writes one element with the record held: whether to send it, the slots' lengths in payload order, payload, and
    /// other data packed from the top bit. The bytes of the element, which stand at the start of `out`.
    pub fn write(
        &self,
        send: bool,
        lengths: &[u32],
        payload: &[u8],
        other: &[u8],
        out: &mut [u8],
    ) -> Result<usize, Refusal> {
        let mut written = 0;
        let number = unsafe {
            c::schilf_write(
                self.0.as_ptr(),
                send,
                lengths.as_ptr(),
                lengths.len(),
                payload.as_ptr(),
                payload.len(),
                other.as_ptr(),
                other.len(),
                out.as_mut_ptr(),
                out.len(),
                &mut written,
            )
        };
        (number == 0)
            .then_some(written)
            .ok_or(Refusal::unread(number))
    }
}

/// Writes the frame of an element at the start of `out`; the bytes of the frame.
pub fn frame(element: &[u8], out: &mut [u8]) -> Result<usize, Refusal> {
    let mut written = 0;
    let number = unsafe {
        c::schilf_frame(
            element.as_ptr(),
            element.len(),
            out.as_mut_ptr(),
            out.len(),
            &mut written,
        )
    };
    (number == 0)
        .then_some(written)
        .ok_or(Refusal::unread(number))
}

#[cfg(test)]
mod tests {
    use super::*;

    // The two elements of the scope document, in frames.
    const CAPTURE: [u8; 17] = [
        0x56, 0xE0, 9, 0x20, 0, 0x11, 0x90, 0x1F, 0xE0, 0x15, 0x5E, 0x68, 0x56, 0xE0, 2, 0x80, 0,
    ];

    #[test]
    fn both_elements_are_read_and_written() {
        let (mut held, mut map, mut out, mut framed) =
            (Held::nothing(), vec![7; MAP_WORDS], [7; 20], [7; 20]);
        let (first, next) = hunt(&CAPTURE, 0).unwrap();
        assert_eq!(
            held.read(&CAPTURE[15..], &mut map),
            Err(Refusal {
                number: 4,
                place: 0,
                fields: 1
            })
        );
        assert_eq!(
            held.read(first, &mut map),
            Ok(Accepted {
                items: 5,
                fields: 17,
                sent: true
            })
        );
        assert_eq!(map[12..21], [4, 0, 53, 16, 6, 0, 69, 3, 7]);
        let row = Row {
            stream: 0,
            core: 2,
            rate: 48000,
            output: 48000,
            sbr: None,
            ps: None,
            channels: 2,
        };
        assert_eq!((held.row(0, 0), held.row(0, 1)), (Some(row), None));
        assert_eq!(held.write(true, &[2], &[0xAB, 0xCD], &[], &mut out), Ok(9));
        assert_eq!((&out[..9], out[9]), (first, 7));
        assert_eq!(
            held.write(true, &[3], &[0xAB, 0xCD], &[], &mut out),
            Err(Refusal::unread(17))
        );
        assert_eq!(frame(first, &mut framed), Ok(12));
        assert_eq!((&framed[..12], framed[12]), (&CAPTURE[..12], 7));
        let (second, end) = hunt(&CAPTURE, next).unwrap();
        assert_eq!(
            held.read(second, &mut map),
            Ok(Accepted {
                items: 4,
                fields: 2,
                sent: false
            })
        );
        assert_eq!((end, hunt(&CAPTURE, end)), (17, None));
        assert_eq!(held.write(false, &[0], &[], &[], &mut out), Ok(2));
        assert_eq!(&out[..2], second);
    }
}
