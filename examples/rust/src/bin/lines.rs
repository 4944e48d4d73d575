//! Walks the lines of a file of any length from standard input: place, length and the first bytes of each, then the end or the fault.

use sargaceu::lines;
use std::io::{self, Read, Write};
use std::process::ExitCode;

/// How many bytes of a line are shown at most.
const SHOWN: usize = 20;

fn main() -> io::Result<ExitCode> {
    let mut file = Vec::new();
    io::stdin().read_to_end(&mut file)?;
    let mut output = io::stdout().lock();
    for line in lines(&file) {
        match line {
            Ok(line) => {
                let bytes = line.bytes();
                write!(output, "{} {} ", line.place(), bytes.len())?;
                output.write_all(&bytes[..bytes.len().min(SHOWN)])?;
                writeln!(output)?;
            }
            Err(fault) => {
                writeln!(output, "fault {} at {}", fault.number as u8, fault.place)?;
                return Ok(ExitCode::FAILURE);
            }
        }
    }
    writeln!(output, "end")?;
    Ok(ExitCode::SUCCESS)
}
