//! The record: every value of a StreamMuxConfig. All numbers are wide, so that
//! a record can also hold what no field could carry; `is_sendable` tells.

pub const PROGRAMS: usize = 16;
pub const LAYERS: usize = 8;
pub const STREAMS: usize = 16;

const FREQUENCIES: [u64; 13] = [
    96000, 88200, 64000, 48000, 44100, 32000, 24000, 22050, 16000, 12000, 11025, 8000, 7350,
];

#[derive(Clone, Copy, Debug, PartialEq, Eq)]
pub enum Frequency {
    Index(u64),
    Hertz(u64),
}

impl Default for Frequency {
    fn default() -> Self {
        Frequency::Index(0)
    }
}

impl Frequency {
    /// None for an index without a frequency.
    pub fn hertz(self) -> Option<u64> {
        match self {
            Frequency::Index(index) => FREQUENCIES.get(index as usize).copied(),
            Frequency::Hertz(hertz) => Some(hertz),
        }
    }

    fn is_sendable(self) -> bool {
        match self {
            Frequency::Index(index) => index <= 12,
            Frequency::Hertz(hertz) => (1..1 << 24).contains(&hertz),
        }
    }
}

/// How SBR and PS are signalled. The last three stand after 0x2B7.
#[derive(Clone, Copy, Debug, Default, PartialEq, Eq)]
pub enum Form {
    #[default]
    None,
    Type5(Frequency),
    Type29(Frequency),
    SbrOff,
    SbrOn(Frequency),
    SbrOnPs(Frequency, u64),
}

impl Form {
    fn is_sendable(self, version: u64) -> bool {
        match self {
            Form::None => true,
            Form::Type5(frequency) | Form::Type29(frequency) => frequency.is_sendable(),
            Form::SbrOff => version == 1,
            Form::SbrOn(frequency) => version == 1 && frequency.is_sendable(),
            Form::SbrOnPs(frequency, ps) => version == 1 && frequency.is_sendable() && ps <= 1,
        }
    }
}

/// What an AudioSpecificConfig says; useSameConfig repeats exactly this.
#[derive(Clone, Copy, Debug, Default, PartialEq, Eq)]
pub struct AudioConfig {
    pub core_type: u64,
    pub frequency: Frequency,
    pub channels: u64,
    pub form: Form,
    pub frame_length_flag: u64,
    pub depends_on_core_coder: u64,
    pub extension_flag: u64,
}

impl AudioConfig {
    fn is_sendable(&self, version: u64) -> bool {
        (1..=4).contains(&self.core_type)
            && self.frequency.is_sendable()
            && (1..=7).contains(&self.channels)
            && self.form.is_sendable(version)
            && self.frame_length_flag <= 1
            && self.depends_on_core_coder == 0
            && self.extension_flag == 0
    }
}

#[derive(Clone, Copy, Debug, Default, PartialEq, Eq)]
pub struct Stream {
    pub audio: AudioConfig,
    pub frame_length_type: u64,
    pub buffer_fullness: u64,
    pub frame_length: u64,
}

impl Stream {
    /// The bytes of a fixed slot; None where each slot has its own length.
    pub fn fixed_slot(&self) -> Option<u64> {
        (self.frame_length_type == 1).then(|| self.frame_length + 20)
    }

    fn is_sendable(&self, version: u64) -> bool {
        let slot = match self.frame_length_type {
            0 => self.buffer_fullness < 1 << 8 && self.frame_length == 0,
            1 => self.buffer_fullness == 0 && self.frame_length < 1 << 9,
            _ => false,
        };
        slot && self.audio.is_sendable(version)
    }
}

/// What isn't sent holds 0, so two records are equal when all they send is.
#[derive(Clone, Debug, Default, PartialEq, Eq)]
pub struct Record {
    pub version: u64,
    pub version_a: u64,
    pub tara: u64,
    pub same_framing: u64,
    pub num_sub_frames: u64,
    pub num_program: u64,
    pub num_layer: [u64; PROGRAMS],
    pub streams: [Stream; STREAMS],
    pub other_present: u64,
    pub other_bits: u64,
    pub crc_present: u64,
    pub crc: u64,
}

impl Record {
    pub fn stream_count(&self) -> usize {
        let programs = &self.num_layer[..=self.num_program as usize];
        programs.iter().map(|last| *last as usize + 1).sum()
    }

    pub fn sent_streams(&self) -> &[Stream] {
        &self.streams[..self.stream_count()]
    }

    pub fn slot_count(&self) -> usize {
        (self.num_sub_frames as usize + 1) * self.stream_count()
    }

    /// False exactly when refusal 16 is due.
    pub fn is_sendable(&self) -> bool {
        self.has_sendable_head() && self.has_sendable_streams() && self.has_sendable_end()
    }

    fn has_sendable_head(&self) -> bool {
        let tara = match self.version {
            0 => self.tara == 0,
            1 => self.tara < 1 << 32,
            _ => false,
        };
        tara && self.version_a == 0
            && self.same_framing == 1
            && self.num_sub_frames < 1 << 6
            && self.num_program < 1 << 4
    }

    fn has_sendable_streams(&self) -> bool {
        let (sent, unsent) = self.num_layer.split_at(self.num_program as usize + 1);
        let layers = sent.iter().all(|last| *last < 1 << 3) && unsent.iter().all(|last| *last == 0);
        if !layers || self.stream_count() > STREAMS {
            return false;
        }
        let (sent, unsent) = self.streams.split_at(self.stream_count());
        sent.iter().all(|stream| stream.is_sendable(self.version))
            && unsent.iter().all(|stream| *stream == Stream::default())
    }

    fn has_sendable_end(&self) -> bool {
        let other = match self.other_present {
            0 => self.other_bits == 0,
            1 => self.other_bits < 1 << 32,
            _ => false,
        };
        let crc = match self.crc_present {
            0 => self.crc == 0,
            1 => self.crc < 1 << 8,
            _ => false,
        };
        other && crc
    }
}
