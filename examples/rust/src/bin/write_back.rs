//! Reads a message from standard input, writes its table again and reads what was written.

use sargaceu::{Buffers, Form, Refusal};
use std::io::{self, Read};
use std::process::ExitCode;

fn main() -> io::Result<ExitCode> {
    let mut message = Vec::new();
    io::stdin().read_to_end(&mut message)?;
    match write_back(&message) {
        Ok(true) => Ok(ExitCode::SUCCESS),
        Ok(false) => Ok(ExitCode::FAILURE),
        Err(refusal) => {
            println!("refused: {} at {}", refusal.number as u8, refusal.place);
            Ok(ExitCode::FAILURE)
        }
    }
}

/// Whether what was written reads to the same table.
fn write_back(message: &[u8]) -> Result<bool, Refusal> {
    let mut buffers = Buffers::new(Form::Small);
    let table = buffers.read(message)?;

    let mut output = vec![0; table.form().output()];
    let written = table.write(&mut output)?;
    println!("wrote {} bytes in {} lines", written.bytes, written.lines);

    let mut others = Buffers::new(Form::Small);
    let again = others.read(&output[..written.bytes])?;
    let same = again == table;
    println!(
        "{}",
        if same {
            "the same table"
        } else {
            "another table"
        }
    );
    Ok(same)
}
