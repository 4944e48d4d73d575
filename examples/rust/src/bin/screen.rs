//! A check before sending: takes a message from standard input and says whether it meets the rules for screening reports, else the first rule that
//! it does not meet, with the row and its kind. The status is 0 for yes, and 1 for no, for a refused message and where the input could not be read.

use sargaceu::{Buffers, Form, Refusal, Row, Table};
use std::io::{self, Read};
use std::process::ExitCode;

fn main() -> io::Result<ExitCode> {
    let mut message = Vec::new();
    io::stdin().read_to_end(&mut message)?;
    let mut buffers = Buffers::new(Form::Small);
    let table = match buffers.read(&message) {
        Ok(table) => table,
        Err(refusal) => {
            println!("refused: {} at {}", refusal.number as u8, refusal.place);
            return Ok(ExitCode::FAILURE);
        }
    };
    match table.screen() {
        Ok(()) => {
            println!("yes: all rules are met");
            Ok(ExitCode::SUCCESS)
        }
        Err(refusal) => {
            say_no(&table, refusal);
            Ok(ExitCode::FAILURE)
        }
    }
}

/// The place is 0 where no row is to blame.
fn say_no(table: &Table, refusal: Refusal) {
    let row = Row::new(refusal.place).and_then(|row| table.row(row));
    let place = row.map(|segment| format!("row {}, {}: ", segment.row(), segment.kind()));
    let (number, place) = (refusal.number, place.unwrap_or_default());
    println!("no: {place}{number} ({})", number as u8);
}
