//! The smallest reader: takes a message from standard input and prints the value (10.6) of each result, and its unit (10.7) in parentheses.

use sargaceu::{Buffers, Form, Kind, Sought};
use std::io::{self, Read, Write};
use std::process::ExitCode;

fn main() -> io::Result<ExitCode> {
    let mut message = Vec::new();
    io::stdin().read_to_end(&mut message)?;
    let mut buffers = Buffers::new(Form::Small);
    let table = match buffers.read(&message) {
        Ok(table) => table,
        Err(refusal) => {
            println!("refused: {} at {}", refusal.number as u8, refusal.place);
            return Ok(ExitCode::FAILURE);
        }
    };
    let mut output = io::stdout().lock();
    for segment in table.rows().filter(|segment| segment.kind() == Kind::OBX) {
        let value = shown(table.leaf(segment.row().field(6)));
        let unit = shown(table.leaf(segment.row().field(7)));
        write!(output, "row {}: ", segment.row())?;
        output.write_all(&[value, b" (", unit, b")\n"].concat())?;
    }
    Ok(ExitCode::SUCCESS)
}

/// The text of a leaf as it came; a blank where it was sent empty, a dash where it was never sent.
fn shown(sought: Sought<'_>) -> &[u8] {
    match sought {
        Sought::Found(leaf) => leaf.bytes(),
        Sought::Empty => b" ",
        Sought::NotThere => b"-",
    }
}
