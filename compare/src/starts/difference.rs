//! The first difference between what was expected and what was got: a starting state's line, or a
//! record's.

use super::expect::starting_lines;
use super::RECORD_BYTES;
use crate::difference;

/// The same in words as `difference::first`.
pub fn first_difference(input: &[u8], expected: &[u8], got: &[u8]) -> Result<String, String> {
    let starts = starting_lines().len();
    let (expected_starts, expected_lines) = split_after(starts, expected);
    let (got_starts, got_lines) = split_after(starts, got);
    // A starting state has no record, so its line is told by its number alone.
    let numbers: Vec<u8> = (0..starts as u32).flat_map(u32::to_le_bytes).collect();
    difference::first(&numbers, 4, expected_starts, got_starts)
        .map_err(|told| format!("starting state, {told}"))?;
    let records = difference::first(input, RECORD_BYTES, expected_lines, got_lines)?;
    Ok(format!("{starts} starting states, {records} records agree"))
}

/// The first `count` lines, and what is after them.
fn split_after(count: usize, text: &[u8]) -> (&[u8], &[u8]) {
    let lines = text.split_inclusive(|&byte| byte == b'\n');
    text.split_at(lines.take(count).map(<[u8]>::len).sum())
}

#[cfg(test)]
mod tests {
    use super::first_difference as first;
    use crate::starts::{records, text};

    #[test]
    fn equal_texts_agree() {
        let input = records(100, 1);
        let text = text(&input);
        let agreed = "18 starting states, 100 records agree".to_string();
        assert_eq!(first(&input, text.as_bytes(), text.as_bytes()), Ok(agreed));
    }

    #[test]
    fn a_starting_state_a_record_and_a_missing_line_differ() {
        let input = records(100, 1);
        let expected = text(&input);
        let differ = |got: &str| first(&input, expected.as_bytes(), got.as_bytes()).unwrap_err();
        let told = differ(&expected.replacen("new: 0", "new: 1", 1));
        assert!(
            told.starts_with("starting state, record 0 differs"),
            "{told}"
        );
        let mut lines: Vec<&str> = expected.lines().collect();
        let last = lines.pop().unwrap();
        let cut = lines.join("\n") + "\n";
        assert!(differ(&cut).starts_with("record 99 differs"));
        let told = differ(&(cut + "0" + last + "\n"));
        assert!(told.starts_with("record 99 differs"), "{told}");
        assert!(differ("").starts_with("starting state, record 0 differs"));
    }
}
