//! The bytes of a stem: mono 16-bit PCM, after the RIFF/WAVE description.

pub const HEADER_BYTES: usize = 44;

/// Header and numbers.
pub fn stem(rate: u32, numbers: &[i64]) -> Vec<u8> {
    let samples = numbers.iter().flat_map(|&number| sample(number));
    header(rate, 2 * numbers.len() as u32)
        .into_iter()
        .chain(samples)
        .collect()
}

/// The header of `size` bytes of samples: what follows the second field, a chunk with the format (PCM,
/// mono, samples and bytes a second, bytes and bits of a sample), and the head of the samples' chunk.
fn header(rate: u32, size: u32) -> Vec<u8> {
    [
        &b"RIFF"[..],
        &dword(36 + size),
        b"WAVE",
        b"fmt ",
        &dword(16),
        &word(1),
        &word(1),
        &dword(rate),
        &dword(2 * rate),
        &word(2),
        &word(16),
        b"data",
        &dword(size),
    ]
    .concat()
}

fn dword(value: u32) -> [u8; 4] {
    value.to_le_bytes()
}

fn word(value: u16) -> [u8; 2] {
    value.to_le_bytes()
}

/// A number as a signed one of 16 bits.
fn sample(number: i64) -> [u8; 2] {
    (number as i16).to_le_bytes()
}

#[cfg(test)]
mod tests {
    use super::*;

    /// Byte by byte, of a rate and a size whose bytes all differ.
    #[test]
    fn a_header_has_its_fields_in_their_places() {
        let bytes = header(0x0001_5d3f, 0x0012_3456);
        assert_eq!(bytes.len(), HEADER_BYTES);
        assert_eq!(&bytes[0..4], b"RIFF");
        assert_eq!(bytes[4..8], [0x7a, 0x34, 0x12, 0]); // size of what follows
        assert_eq!(&bytes[8..16], b"WAVEfmt ");
        assert_eq!(bytes[16..20], [16, 0, 0, 0]); // bytes of the format
        assert_eq!(bytes[20..22], [1, 0]); // PCM
        assert_eq!(bytes[22..24], [1, 0]); // channels
        assert_eq!(bytes[24..28], [0x3f, 0x5d, 1, 0]); // rate
        assert_eq!(bytes[28..32], [0x7e, 0xba, 2, 0]); // bytes a second
        assert_eq!(bytes[32..34], [2, 0]); // block align
        assert_eq!(bytes[34..36], [16, 0]); // bits of a sample
        assert_eq!(&bytes[36..40], b"data");
        assert_eq!(bytes[40..44], [0x56, 0x34, 0x12, 0]); // size
    }

    #[test]
    fn numbers_follow_the_header_with_their_lower_byte_first() {
        let bytes = stem(8_000, &[0, 1, -1, 32_767, -32_767, 0x1234]);
        assert_eq!(bytes[..HEADER_BYTES], header(8_000, 12));
        let samples = [0, 0, 1, 0, 255, 255, 255, 127, 1, 128, 0x34, 0x12];
        assert_eq!(bytes[HEADER_BYTES..], samples);
        assert_eq!(stem(1, &[]).len(), HEADER_BYTES);
    }
}
