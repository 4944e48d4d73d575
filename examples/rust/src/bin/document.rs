//! A report of up to a megabyte: takes it from standard input in the large form and writes the longest value (10.6) out as it came. Where that
//! is a document in base 64, `base64 -d` turns it into the document.

use sargaceu::{Buffers, Form, Kind};
use std::io::{self, Read, Write};
use std::process::ExitCode;

fn main() -> io::Result<ExitCode> {
    let mut message = Vec::new();
    io::stdin().read_to_end(&mut message)?;
    let mut buffers = Buffers::new(Form::Large);
    let table = match buffers.read(&message) {
        Ok(table) => table,
        Err(refusal) => {
            println!("refused: {} at {}", refusal.number as u8, refusal.place);
            return Ok(ExitCode::FAILURE);
        }
    };
    let mut longest: &[u8] = b"";
    for result in table.rows().filter(|segment| segment.kind() == Kind::OBX) {
        let value = table.leaf(result.row().field(6)).text_or(b"");
        if value.len() > longest.len() {
            longest = value;
        }
    }
    io::stdout().write_all(longest)?;
    Ok(ExitCode::SUCCESS)
}
