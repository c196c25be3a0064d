//! Many job lists in one stream, each after its length in four bytes, little-endian; and their texts
//! in one stream, each with a line `-` after it.

use super::{expect, Tried};
use crate::difference;

/// The longest list that the program `lists` takes.
pub const MOST_FRAMED: usize = 70_000;
/// No line that the renderer prints is this one.
pub const END_OF_TEXT: &[u8] = b"-\n";
const LENGTH_BYTES: usize = 4;

/// A list with its length before it.
pub fn frame(list: &[u8]) -> Vec<u8> {
    [&(list.len() as u32).to_le_bytes(), list].concat()
}

/// The lists of a stream, up to one that is cut short or too long.
pub fn lists(input: &[u8]) -> Vec<&[u8]> {
    let mut lists = Vec::new();
    let mut left = input;
    while let Some((list, rest)) = split(left) {
        lists.push(list);
        left = rest;
    }
    lists
}

/// The first list of a stream, and what comes after it.
fn split(input: &[u8]) -> Option<(&[u8], &[u8])> {
    let (length, rest) = input.split_first_chunk::<LENGTH_BYTES>()?;
    let length = u32::from_le_bytes(*length) as usize;
    (length <= MOST_FRAMED)
        .then_some(rest)?
        .split_at_checked(length)
}

/// The text of each list of a stream, each with its last line.
pub fn texts(input: &[u8], tried: &mut Tried) -> Result<Vec<u8>, String> {
    let mut texts = Vec::new();
    for (number, list) in lists(input).into_iter().enumerate() {
        let text = expect::text(list, tried).map_err(|e| format!("list {number}, {e}"))?;
        texts.extend(text.into_bytes());
        texts.extend(END_OF_TEXT);
    }
    Ok(texts)
}

/// How many lists and records agree, in words, or else the first difference.
pub fn first_difference(input: &[u8], expected: &[u8], got: &[u8]) -> Result<String, String> {
    let (mut expected, mut got) = (expected, got);
    let lists = lists(input);
    let mut records = 0;
    for (number, list) in lists.iter().enumerate() {
        let (one, other) = (next_text(&mut expected), next_text(&mut got));
        records += difference::first_of_list(number, list, one, other)?;
    }
    if !expected.is_empty() || !got.is_empty() {
        return Err("there is a text past that of the last list".to_string());
    }
    Ok(format!("{} lists, {records} records agree", lists.len()))
}

/// Takes the first text off, with its last line where it has one.
fn next_text<'a>(texts: &mut &'a [u8]) -> &'a [u8] {
    let lines = texts.split_inclusive(|&byte| byte == b'\n');
    let mut length = 0;
    for line in lines {
        length += line.len();
        if line == END_OF_TEXT {
            break;
        }
    }
    let (text, rest) = texts.split_at(length);
    *texts = rest;
    text
}

#[cfg(test)]
mod tests {
    use super::*;

    #[test]
    fn lists_come_back_and_one_cut_short_ends_them() {
        let all: [&[u8]; 4] = [b"", b"abc", b"", &[7; 300]];
        let stream = all.map(frame).concat();
        assert_eq!(lists(&stream), all);
        for cut in 1..=300 + LENGTH_BYTES {
            assert_eq!(
                lists(&stream[..stream.len() - cut]),
                all[..3],
                "{cut} bytes"
            );
        }
        assert_eq!(lists(b""), [[]; 0]);
    }

    #[test]
    fn the_longest_list_is_of_70000_bytes() {
        let after = frame(b"");
        let lengths = |n: usize| -> Vec<usize> {
            let stream = [frame(&vec![0; n]), after.clone()].concat();
            lists(&stream).iter().map(|list| list.len()).collect()
        };
        assert_eq!(lengths(70_000), [70_000, 0]);
        assert_eq!(lengths(70_001), [0; 0]);
    }

    #[test]
    fn a_text_ends_with_its_line() {
        let stream = [&b""[..], b"x", &[0; 64]].map(frame).concat();
        let texts = texts(&stream, &mut Tried::default()).unwrap();
        assert_eq!(texts, b"-\n8\n-\n0 7 0 0 0 0 0 0\n-\n");
        assert_eq!(
            first_difference(&stream, &texts, &texts).unwrap(),
            "3 lists, 1 records agree"
        );
    }

    #[test]
    fn a_text_that_is_missing_further_or_another_is_told() {
        let stream = [&b""[..], &[0; 64], b""].map(frame).concat();
        let expected = b"-\n0 7 0 0 0 0 0 0\n-\n-\n";
        for (got, told) in [
            (&b"-\n0 7 0 0 0 0 0 0\n-\n"[..], "list 2, record 0 differs"),
            (b"-\n0 7 0 0 0 0 0 0\n", "list 1, record 1 differs"),
            (b"-\n0 7 0 0 0 0 0 1\n-\n-\n", "list 1, record 0 differs"),
            (b"-\n-\n-\n", "list 1, record 0 differs"),
            (b"", "list 0, record 0 differs"),
            (b"-\n0 7 0 0 0 0 0 0\n-\n-\n-\n", "there is a text past"),
        ] {
            let found = first_difference(&stream, expected, got).unwrap_err();
            assert!(found.starts_with(told), "{found}");
        }
    }
}
