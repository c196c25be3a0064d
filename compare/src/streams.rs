//! Standard input and output: all is read, all is written, and what fails is told.

use std::io::{self, Read, Write};
use std::process;

/// Says that all agree, or the first difference, which ends the program with status 1.
pub fn tell(found: Result<String, String>) -> Result<(), String> {
    match found {
        Ok(agreed) => write_out(format!("{agreed}\n").as_bytes()),
        Err(told) => {
            // A difference is what was asked for, and no error of this program: it is told alone.
            write_out(format!("{told}\n").as_bytes())?;
            process::exit(1);
        }
    }
}

/// All of it: what standard output keeps back for a line to end would be lost without a word.
pub fn write_out(bytes: &[u8]) -> Result<(), String> {
    let mut out = io::stdout().lock();
    out.write_all(bytes).map_err(cannot_write)?;
    out.flush().map_err(cannot_write)
}

pub fn read_input() -> Result<Vec<u8>, String> {
    let mut input = Vec::new();
    io::stdin()
        .lock()
        .read_to_end(&mut input)
        .map_err(|e| format!("cannot read standard input: {e}"))?;
    Ok(input)
}

pub fn read_records(record_bytes: usize) -> Result<Vec<u8>, String> {
    let input = read_input()?;
    if !input.len().is_multiple_of(record_bytes) {
        return Err(format!(
            "the input has {} bytes, no multiple of a record's {record_bytes}",
            input.len()
        ));
    }
    Ok(input)
}

pub fn cannot_write(error: io::Error) -> String {
    format!("cannot write to standard output: {error}")
}
