//! The command line: makes records, makes the answers that the ported Rust gives to them, and
//! finds the first difference between two lists of answers.

#[cfg(library)]
mod buffers;
mod calls;
mod difference;
mod heard;
mod leaves;
mod lists;
mod random;
mod records;
mod starts;
mod stems;
mod streams;
mod waves;

use calls::record::{Record, RECORD_BYTES};
use calls::stats::Stats;
use calls::Kinds;
use std::io::{self, BufWriter, Write};
use std::path::Path;
use std::{env, fs, process};
use streams::{cannot_write, read_input, read_records, tell, write_out};

// The ported Rust as build.rs lays it out: the modules `oscillator` and `utils`.
include!(concat!(env!("OUT_DIR"), "/source.rs"));

const USAGE: &str = "usage: compare make-leaves COUNT SEED | expect-leaves | \
    make-calls COUNT SEED [--kinds LIST] | make-recorded-calls | make-drifts TRIES SEED | \
    expect-calls [--kinds LIST] [--stats] | \
    make-lists COUNT SEED | make-recorded-lists | split-lists DIR | expect-list | \
    expect-lists [--stats] | make-starts COUNT SEED | expect-starts | \
    make-records COUNT SEED | expect-records | \
    make-recorded-heard | expect-heard [--stats] | \
    make-waves COUNT SEED | make-recorded-waves | expect-waves [--stats] | make-boundaries | \
    make-stems COUNT SEED DIR | make-recorded-stem | expect-stem | expect-stems COUNT SEED | \
    first-difference leaves|calls|lists|starts|records|heard|waves|stem INPUT EXPECTED GOT";

fn main() {
    let words: Vec<String> = env::args().skip(1).collect();
    let words: Vec<&str> = words.iter().map(String::as_str).collect();
    if let Err(message) = run(&words) {
        eprintln!("compare: {message}");
        process::exit(2);
    }
}

fn run(words: &[&str]) -> Result<(), String> {
    match words {
        ["make-leaves", count, seed] => make_leaves(number(count)?, number(seed)?),
        ["expect-leaves"] => expect_leaves(),
        ["make-calls", count, seed] => make_calls(number(count)?, number(seed)?, Kinds::all()),
        ["make-calls", count, seed, "--kinds", list] => {
            make_calls(number(count)?, number(seed)?, Kinds::parse(list)?)
        }
        ["make-recorded-calls"] => write_calls(&calls::make::recorded()),
        ["make-drifts", tries, seed] => {
            write_calls(&calls::make::drifting(number(tries)?, number(seed)?))
        }
        ["expect-calls", options @ ..] => {
            let (kinds, with_stats) = expect_options(options)?;
            expect_calls(&kinds, with_stats)
        }
        ["make-lists", count, seed] => {
            make_lists(lists::make::lists(number(count)? as usize, number(seed)?))
        }
        ["make-recorded-lists"] => write_out(&lists::make::recorded::stream()),
        ["split-lists", folder] => split_lists(Path::new(folder)),
        ["expect-list"] => expect_list(),
        ["expect-lists"] => expect_lists().map(|_| ()),
        ["expect-lists", "--stats"] => expect_lists().map(|tried| eprint!("{tried}")),
        ["make-starts", count, seed] => write_out(&starts::records(number(count)?, number(seed)?)),
        ["expect-starts"] => expect_starts(),
        ["make-records", count, seed] => {
            write_out(&records::records(number(count)?, number(seed)?))
        }
        ["expect-records"] => write_out(records::text(&read_input()?).as_bytes()),
        ["make-recorded-heard"] => write_out(&heard::stream()),
        ["expect-heard"] => expect_heard().map(|_| ()),
        ["expect-heard", "--stats"] => expect_heard().map(|tried| eprint!("{tried}")),
        ["first-difference", what, input, expected, got] => {
            first_difference(what, [input, expected, got])
        }
        #[cfg(library)]
        ["buffers", count, seed] => tell(buffers::compare(number(count)?, number(seed)?)),
        _ => run_on_stems(words),
    }
}

fn run_on_stems(words: &[&str]) -> Result<(), String> {
    match words {
        ["make-waves", count, seed] => write_out(&waves::fresh(number(count)?, number(seed)?)),
        ["make-recorded-waves"] => write_out(&waves::recorded()),
        ["expect-waves"] => expect_waves().map(|_| ()),
        ["expect-waves", "--stats"] => expect_waves().map(|tried| eprint!("{tried}")),
        ["make-boundaries"] => write_out(&waves::boundaries::table()),
        ["make-stems", count, seed, folder] => {
            let inputs = stems::inputs(number(count)?, number(seed)?);
            write_files(inputs, Path::new(folder), "in")
        }
        ["make-recorded-stem"] => write_out(&stems::recorded()),
        ["expect-stem"] => expect_stem(),
        ["expect-stems", count, seed] => {
            let lines = stems::lines(stems::inputs(number(count)?, number(seed)?))?;
            write_out(lines.as_bytes())
        }
        _ => Err(USAGE.to_string()),
    }
}

fn number(word: &str) -> Result<u64, String> {
    word.parse()
        .map_err(|_| format!("{word} is no whole number; {USAGE}"))
}

fn make_leaves(count: u64, seed: u64) -> Result<(), String> {
    let mut out = BufWriter::new(io::stdout().lock());
    for record in leaves::make::records(count as usize, seed) {
        for word in record {
            out.write_all(&word.to_le_bytes()).map_err(cannot_write)?;
        }
    }
    out.flush().map_err(cannot_write)
}

fn expect_leaves() -> Result<(), String> {
    let input = read_records(leaves::RECORD_BYTES)?;
    let mut out = BufWriter::new(io::stdout().lock());
    for record in input.chunks(leaves::RECORD_BYTES) {
        let word = |at: usize| u32::from_le_bytes([0, 1, 2, 3].map(|byte| record[at + byte]));
        let line = leaves::expect::line([word(0), word(4), word(8)]);
        writeln!(out, "{line}").map_err(cannot_write)?;
    }
    out.flush().map_err(cannot_write)
}

fn make_calls(count: u64, seed: u64, kinds: Kinds) -> Result<(), String> {
    write_calls(&calls::make::records(count as usize, seed, &kinds))
}

fn write_calls(records: &[Record]) -> Result<(), String> {
    let mut out = BufWriter::new(io::stdout().lock());
    for record in records {
        out.write_all(&record.0).map_err(cannot_write)?;
    }
    out.flush().map_err(cannot_write)
}

fn expect_options(options: &[&str]) -> Result<(Kinds, bool), String> {
    match options {
        [] => Ok((Kinds::all(), false)),
        ["--stats", rest @ ..] => Ok((expect_options(rest)?.0, true)),
        ["--kinds", list] => Ok((Kinds::parse(list)?, false)),
        ["--kinds", list, "--stats"] => Ok((Kinds::parse(list)?, true)),
        _ => Err(USAGE.to_string()),
    }
}

fn expect_calls(kinds: &Kinds, with_stats: bool) -> Result<(), String> {
    let input = read_records(RECORD_BYTES)?;
    let mut out = BufWriter::new(io::stdout().lock());
    let mut stats = Stats::default();
    for (number, bytes) in input.chunks(RECORD_BYTES).enumerate() {
        let mut record = Record([0; RECORD_BYTES]);
        record.0.copy_from_slice(bytes);
        let line = calls::expect::expect(number, &record, kinds, &mut stats)?;
        writeln!(out, "{line}").map_err(cannot_write)?;
    }
    if with_stats {
        eprint!("{stats}");
    }
    out.flush().map_err(cannot_write)
}

fn first_difference(what: &str, names: [&str; 3]) -> Result<(), String> {
    let read = |name: &str| fs::read(name).map_err(|e| format!("cannot read {name}: {e}"));
    let [input, expected, got] = names;
    let (input, expected, got) = (read(input)?, read(expected)?, read(got)?);
    let of_records = |record_bytes: usize| {
        let found = difference::first(&input, record_bytes, &expected, &got);
        found.map(|count| format!("{count} records agree"))
    };
    tell(match what {
        "leaves" => of_records(leaves::RECORD_BYTES),
        "calls" => of_records(RECORD_BYTES),
        "lists" | "heard" => lists::framed::first_difference(&input, &expected, &got),
        "starts" => starts::first_difference(&input, &expected, &got),
        "records" => of_records(records::RECORD_BYTES),
        "waves" => waves::first_difference(&input, &expected, &got),
        "stem" => stems::first_difference(&expected, &got),
        _ => return Err(USAGE.to_string()),
    })
}

fn make_lists(lists: impl Iterator<Item = Vec<u8>>) -> Result<(), String> {
    let mut out = BufWriter::new(io::stdout().lock());
    for list in lists {
        let framed = lists::framed::frame(&list);
        out.write_all(&framed).map_err(cannot_write)?;
    }
    out.flush().map_err(cannot_write)
}

/// Writes each list into a file of its own, for a program that reads one list.
fn split_lists(folder: &Path) -> Result<(), String> {
    let input = read_input()?;
    write_files(lists::framed::lists(&input).into_iter(), folder, "jobs")
}

/// Files of which each has its number, from 0, as its name.
fn write_files(
    inputs: impl Iterator<Item = impl AsRef<[u8]>>,
    folder: &Path,
    ending: &str,
) -> Result<(), String> {
    let cannot = |e: io::Error| format!("cannot write to {}: {e}", folder.display());
    fs::create_dir_all(folder).map_err(cannot)?;
    for (number, input) in inputs.enumerate() {
        fs::write(folder.join(format!("{number:06}.{ending}")), input).map_err(cannot)?;
    }
    Ok(())
}

fn expect_list() -> Result<(), String> {
    let text = lists::expect::text(&read_input()?, &mut lists::Tried::default())?;
    write_out(text.as_bytes())
}

fn expect_lists() -> Result<lists::Tried, String> {
    let mut tried = lists::Tried::default();
    let texts = lists::framed::texts(&read_input()?, &mut tried)?;
    write_out(&texts)?;
    Ok(tried)
}

fn expect_heard() -> Result<lists::Tried, String> {
    let mut tried = lists::Tried::default();
    write_out(&heard::texts(&read_input()?, &mut tried)?)?;
    Ok(tried)
}

fn expect_starts() -> Result<(), String> {
    write_out(starts::text(&read_records(starts::RECORD_BYTES)?).as_bytes())
}

fn expect_waves() -> Result<waves::Tried, String> {
    let mut tried = waves::Tried::default();
    write_out(waves::text(&read_input()?, &mut tried).as_bytes())?;
    Ok(tried)
}

/// As the program does: a file to standard output, or else a line to standard error.
fn expect_stem() -> Result<(), String> {
    match stems::stem(&read_input()?)? {
        stems::Stem::Written(file) => write_out(&file),
        stems::Stem::Refused(answer) => {
            eprint!("{}", stems::said(answer));
            Ok(())
        }
    }
}
