//! A call record: 128 bytes, little-endian, with the settings of one call and the state before it.

pub const RECORD_BYTES: usize = 128;
/// Where the state words begin.
pub const STATE_AT: usize = 64;
/// The longest block of which a line is printed.
pub const LONGEST_TRIED: usize = 8192;

pub const SHAPE: u8 = 1;
pub const SAW: u8 = 2;
pub const SUPER_SQUARE: u8 = 3;
pub const NES: u8 = 4;
pub const STRING: u8 = 5;
pub const CLASSIC: u8 = 6;

/// The largest number of a shape of the classic oscillator.
pub const MOST_SHAPE: u8 = 7;
/// In place of flags or a shape: the record asks for another call than `render`.
pub const ANOTHER_CALL: u8 = 128;

pub const LENGTH_AT: usize = 2;
pub const BITS_AT: usize = 4;
pub const FREQUENCY_AT: usize = 8;
/// The master frequency of the variable shape, the gain of the string.
pub const MASTER_OR_GAIN_AT: usize = 12;
/// What another call than `render` takes: a master phase, or a sample rate.
pub const GIVEN_AT: usize = 12;
/// The pulse width of the variable shape, the saw and the classic, the shape of the super square.
pub const WIDTH_OR_SHAPE_AT: usize = 16;
pub const WAVESHAPE_AT: usize = 20;
pub const PHASE_MODULATION_AT: usize = 24;
pub const REGISTRATION_AT: usize = 28;
pub const REGISTRATION_COUNT_AT: usize = 56;
/// What each sample of the buffer holds before the call; 0 stands for plain numbers.
pub const BUFFER_AT: usize = 60;

/// What a record asks for, of an oscillator that its kind has.
#[derive(Clone, Copy, Debug, PartialEq)]
pub enum Asks {
    Render,
    SetMasterPhase,
    Init,
    /// The classic's shape is none.
    Nothing,
}

#[derive(Clone, Copy)]
pub struct Record(pub [u8; RECORD_BYTES]);

impl Record {
    pub fn of_kind(kind: u8) -> Self {
        let mut bytes = [0; RECORD_BYTES];
        bytes[0] = kind;
        Record(bytes)
    }

    pub fn word(&self, at: usize) -> u32 {
        u32::from_le_bytes([0, 1, 2, 3].map(|byte| self.0[at + byte]))
    }

    pub fn set_word(&mut self, at: usize, word: u32) {
        self.0[at..at + 4].copy_from_slice(&word.to_le_bytes());
    }

    pub fn float(&self, at: usize) -> f32 {
        f32::from_bits(self.word(at))
    }

    pub fn set_float(&mut self, at: usize, value: f32) {
        self.set_word(at, value.to_bits());
    }

    pub fn kind(&self) -> u8 {
        self.0[0]
    }

    pub fn sync(&self) -> bool {
        self.0[1] & 1 != 0
    }

    pub fn phase_output(&self) -> bool {
        self.0[1] & 2 != 0
    }

    /// The number of the classic's shape.
    pub fn shape(&self) -> u8 {
        self.0[1]
    }

    pub fn asks(&self) -> Asks {
        match (self.kind(), self.0[1]) {
            (SHAPE, ANOTHER_CALL) => Asks::SetMasterPhase,
            (CLASSIC, ANOTHER_CALL) => Asks::Init,
            (CLASSIC, shape) if shape > MOST_SHAPE => Asks::Nothing,
            _ => Asks::Render,
        }
    }

    /// Flags of the variable shape, or the classic's shape.
    pub fn set_flags(&mut self, flags: u8) {
        self.0[1] = flags;
    }

    pub fn length(&self) -> usize {
        usize::from(u16::from_le_bytes([
            self.0[LENGTH_AT],
            self.0[LENGTH_AT + 1],
        ]))
    }

    pub fn set_length(&mut self, length: u16) {
        self.0[LENGTH_AT..LENGTH_AT + 2].copy_from_slice(&length.to_le_bytes());
    }

    pub fn bits(&self) -> u32 {
        self.word(BITS_AT)
    }

    pub fn registration(&self) -> [f32; 7] {
        [0, 1, 2, 3, 4, 5, 6].map(|i| self.float(REGISTRATION_AT + 4 * i))
    }

    pub fn registration_count(&self) -> u32 {
        self.word(REGISTRATION_COUNT_AT)
    }

    pub fn state_words(&self) -> Vec<u32> {
        let count = state_word_count(self.kind());
        (0..count).map(|i| self.word(state_at(i))).collect()
    }

    pub fn set_state_words(&mut self, words: &[u32]) {
        for (i, &word) in words.iter().enumerate() {
            self.set_word(state_at(i), word);
        }
    }
}

/// Where state word `i` stands in a record.
pub const fn state_at(i: usize) -> usize {
    STATE_AT + 4 * i
}

/// How many fields the state of a kind has.
pub fn state_word_count(kind: u8) -> usize {
    match kind {
        SHAPE => 10,
        SAW => 7,
        SUPER_SQUARE => 6,
        NES => 5,
        STRING => 8,
        CLASSIC => 9,
        _ => 0,
    }
}
