/// A refusal by its number in document 01, with the place and the fields read.
#[derive(Clone, Copy, Debug, PartialEq, Eq)]
pub struct Refusal {
    pub number: u8,
    pub place: u64,
    pub fields: u64,
}

impl Refusal {
    /// A refusal given at no field.
    pub fn plain(number: u8) -> Refusal {
        Refusal {
            number,
            place: 0,
            fields: 0,
        }
    }

    pub fn words(&self) -> &'static str {
        match self.number {
            2 => "the element has no byte, or more than 8191",
            3 => "the element ends before this field, fill, payload or other data does",
            4 => "the held configuration is to apply, and none is held",
            5 => "audioMuxVersionA is 1",
            6 => "the streams are not framed together",
            7 => "more than 16 streams",
            8 => "audio object type not carried",
            9 => "frequency index 13 or 14, or a frequency of 0 Hz",
            10 => "a field of the configuration passes ascLen",
            11 => "channelConfiguration not carried",
            12 => "dependsOnCoreCoder or extensionFlag is 1",
            13 => "frameLengthType not carried",
            14 => "the length of other data has more than four groups",
            15 => "whole bytes are left after the alignment",
            _ => "not given to an element of a capture",
        }
    }
}
