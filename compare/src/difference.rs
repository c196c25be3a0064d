//! The first difference between two lists of lines, with the record that it belongs to.

use crate::lists::{refused, JOB_BYTES};

/// A line and its place, as it is expected and as it was got; nothing where a list has none there.
struct Differing<'a> {
    number: usize,
    expected: Option<&'a [u8]>,
    got: Option<&'a [u8]>,
}

/// The first record whose lines differ, told in words; nothing where both lists agree and have a
/// line for each record. `input` is the records' bytes, each of `record_bytes`.
pub fn first(
    input: &[u8],
    record_bytes: usize,
    expected: &[u8],
    got: &[u8],
) -> Result<usize, String> {
    let mut records = input.chunks(record_bytes);
    let count = records.len();
    match first_line(count, expected, got) {
        None => Ok(count),
        Some(differing) => {
            let record = records.nth(differing.number).unwrap_or_default();
            Err(format!(
                "record {} differs\n  words    {}\n{}",
                differing.number,
                words(record),
                both(&differing)
            ))
        }
    }
}

/// The same for job list `list`, whose records are told byte by byte. The line that ends its text
/// stands past the last record.
pub fn first_of_list(
    list: usize,
    input: &[u8],
    expected: &[u8],
    got: &[u8],
) -> Result<usize, String> {
    if refused(input) {
        return match first_line(2, expected, got) {
            None => Ok(0),
            Some(differing) => Err(format!(
                "list {list} differs, which has {} bytes\n{}",
                input.len(),
                both(&differing)
            )),
        };
    }
    let mut records = input.chunks(JOB_BYTES);
    let count = records.len();
    match first_line(count + 1, expected, got) {
        None => Ok(count),
        Some(differing) => {
            let record = records.nth(differing.number).unwrap_or_default();
            Err(format!(
                "list {list}, record {} differs\n  bytes    {}\n{}",
                differing.number,
                bytes(record),
                both(&differing)
            ))
        }
    }
}

/// The first of `count` lines in which both differ, or a line past these.
fn first_line<'a>(count: usize, expected: &'a [u8], got: &'a [u8]) -> Option<Differing<'a>> {
    let mut expected = expected.split_inclusive(|&byte| byte == b'\n');
    let mut got = got.split_inclusive(|&byte| byte == b'\n');
    for number in 0..=count {
        let (expected, got) = (expected.next(), got.next());
        let none_is_due = number == count;
        if expected != got || expected.is_none() != none_is_due {
            return Some(Differing {
                number,
                expected,
                got,
            });
        }
    }
    None
}

fn both(differing: &Differing) -> String {
    format!(
        "  expected {}\n  got      {}",
        shown(differing.expected),
        shown(differing.got)
    )
}

const PAST_THE_LAST: &str = "(a line past the last record)";

/// A record's bytes as they stand, in groups of four.
fn bytes(record: &[u8]) -> String {
    if record.is_empty() {
        return PAST_THE_LAST.to_string();
    }
    let group = |bytes: &[u8]| bytes.iter().map(|byte| format!("{byte:02x}")).collect();
    record
        .chunks(4)
        .map(group)
        .collect::<Vec<String>>()
        .join(" ")
}

fn words(record: &[u8]) -> String {
    if record.is_empty() {
        return PAST_THE_LAST.to_string();
    }
    let word = |bytes: &[u8]| {
        let mut four = [0; 4];
        four[..bytes.len()].copy_from_slice(bytes);
        format!("{:08x}", u32::from_le_bytes(four))
    };
    record.chunks(4).map(word).collect::<Vec<_>>().join(" ")
}

fn shown(line: Option<&[u8]>) -> String {
    match line {
        None => "(no line)".to_string(),
        Some(line) => match line.strip_suffix(b"\n") {
            Some(text) => String::from_utf8_lossy(text).into_owned(),
            None => format!("{} (no newline at its end)", String::from_utf8_lossy(line)),
        },
    }
}

#[cfg(test)]
mod tests {
    use super::{first, first_of_list};

    const RECORDS: [u8; 8] = [1, 0, 0, 0, 2, 0, 0, 0];

    #[test]
    fn equal_lists_agree() {
        assert_eq!(first(&RECORDS, 4, b"a\nb\n", b"a\nb\n"), Ok(2));
        assert_eq!(first(b"", 4, b"", b""), Ok(0));
    }

    #[test]
    fn the_first_difference_names_its_record() {
        let told = first(&RECORDS, 4, b"a\nb\n", b"a\nc\n").unwrap_err();
        assert!(
            told.starts_with("record 1 differs\n  words    00000002\n"),
            "{told}"
        );
    }

    #[test]
    fn a_missing_line_a_further_line_and_a_missing_newline_differ() {
        for (expected, got) in [
            ("a\nb\n", "a\n"),
            ("a\nb\n", "a\nb\nc\n"),
            ("a\nb\n", "a\nb"),
        ] {
            assert!(first(&RECORDS, 4, expected.as_bytes(), got.as_bytes()).is_err());
        }
        assert!(first(&RECORDS, 4, b"a\n", b"a\n").is_err());
    }

    #[test]
    fn a_list_is_named_with_its_record_and_bytes() {
        let mut list = [0; 128];
        list[64..68].copy_from_slice(&[4, 0, 8, 255]);
        let whole = b"a\nb\n-\n";
        assert_eq!(first_of_list(3, &list, whole, whole), Ok(2));
        let told = first_of_list(3, &list, whole, b"a\nc\n-\n").unwrap_err();
        let first_lines = "list 3, record 1 differs\n  bytes    040008ff 00000000 ";
        assert!(told.starts_with(first_lines), "{told}");
        assert!(told.ends_with("\n  expected b\n  got      c"), "{told}");
        for got in ["a\n-\n", "a\nb\n", "a\nb\nc\n-\n", "a\nb\n-"] {
            assert!(first_of_list(3, &list, whole, got.as_bytes()).is_err());
        }
    }

    #[test]
    fn an_empty_list_has_no_line_and_a_refused_one_has_one() {
        assert_eq!(first_of_list(0, b"", b"-\n", b"-\n"), Ok(0));
        for got in ["", "\n-\n", "-\n-\n"] {
            assert!(first_of_list(0, b"", b"-\n", got.as_bytes()).is_err());
        }
        for length in [1, 63, 65, 65_537, 65_600] {
            let list = vec![0; length];
            assert_eq!(first_of_list(0, &list, b"8\n-\n", b"8\n-\n"), Ok(0));
            let told = first_of_list(7, &list, b"8\n-\n", b"-\n").unwrap_err();
            let whole = format!("list 7 differs, which has {length} bytes\n  expected 8\n");
            assert!(told.starts_with(&whole), "{told}");
        }
    }
}
