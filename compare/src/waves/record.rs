//! A record of the program `waves`: 64 bytes, little-endian, which ask for one call of `write`.

pub const RECORD_BYTES: usize = 64;
/// How many bit patterns the samples go through.
pub const PATTERNS: usize = 11;

#[derive(Clone, Copy, Debug, PartialEq)]
pub struct Record {
    pub rate: u32,
    /// How many samples there are.
    pub count: u32,
    /// How many bytes are lent.
    pub lent: u32,
    /// The sample that has a pattern of its own.
    pub place: u32,
    pub own: u32,
    pub patterns: [u32; PATTERNS],
}

impl Record {
    pub fn to_bytes(self) -> [u8; RECORD_BYTES] {
        let head = [self.rate, self.count, self.lent, self.place, self.own];
        let words = head.into_iter().chain(self.patterns);
        let mut bytes = [0; RECORD_BYTES];
        for (to, word) in bytes.chunks_exact_mut(4).zip(words) {
            to.copy_from_slice(&word.to_le_bytes());
        }
        bytes
    }

    pub fn from_bytes(bytes: &[u8; RECORD_BYTES]) -> Self {
        let word = |i: usize| u32::from_le_bytes([0, 1, 2, 3].map(|byte| bytes[4 * i + byte]));
        Record {
            rate: word(0),
            count: word(1),
            lent: word(2),
            place: word(3),
            own: word(4),
            patterns: std::array::from_fn(|i| word(5 + i)),
        }
    }

    /// The samples by their bits.
    pub fn samples(&self) -> Vec<u32> {
        let sample = |i: u32| match i == self.place {
            true => self.own,
            false => self.patterns[i as usize % PATTERNS],
        };
        (0..self.count).map(sample).collect()
    }
}

/// The records of an input. A last one that is not whole is left out.
pub fn records(input: &[u8]) -> impl Iterator<Item = Record> + '_ {
    let (whole, _) = input.as_chunks::<RECORD_BYTES>();
    whole.iter().map(Record::from_bytes)
}

#[cfg(test)]
mod tests {
    use super::*;

    fn numbered() -> Record {
        let mut bytes = [0; RECORD_BYTES];
        for (i, byte) in bytes.iter_mut().enumerate() {
            *byte = i as u8 + 1;
        }
        Record::from_bytes(&bytes)
    }

    #[test]
    fn a_record_has_its_words_in_their_places() {
        let record = numbered();
        assert_eq!(
            record.to_bytes().map(u32::from),
            std::array::from_fn(|i| i as u32 + 1)
        );
        assert_eq!([record.rate, record.count], [0x0403_0201, 0x0807_0605]);
        assert_eq!([record.lent, record.place], [0x0c0b_0a09, 0x100f_0e0d]);
        assert_eq!([record.own, record.patterns[0]], [0x1413_1211, 0x1817_1615]);
        assert_eq!(record.patterns[10], 0x403f_3e3d);
    }

    #[test]
    fn samples_go_through_eleven_patterns_save_in_one_place() {
        let patterns = std::array::from_fn(|i| i as u32);
        let with = |count: u32, place: u32| {
            let own = 99;
            let record = Record {
                count,
                place,
                own,
                patterns,
                ..numbered()
            };
            record.samples()
        };
        assert_eq!(with(13, 12), [0, 1, 2, 3, 4, 5, 6, 7, 8, 9, 10, 0, 99]);
        assert_eq!(with(3, 3), [0, 1, 2]);
        assert_eq!(with(2, 0), [99, 1]);
        assert_eq!(with(0, 0), [0; 0]);
    }

    #[test]
    fn a_last_record_that_is_not_whole_is_left_out() {
        let whole = numbered().to_bytes().repeat(2);
        for more in 0..RECORD_BYTES {
            let input = [&whole[..], &whole[..more]].concat();
            assert_eq!(records(&input).count(), 2, "{more} bytes more");
        }
    }
}
