//! A trend view: takes a message from standard input and shows the numeric results of each order (9.4.2), by the code of the test (10.4): whole
//! number, decimals and the text that is written of them again, or the number that the value is refused with.

use sargaceu::{Buffers, Form, Kind, Place, Refusal, Row, Table};
use std::io::{self, Read, Write};
use std::process::ExitCode;

fn main() -> io::Result<ExitCode> {
    let mut message = Vec::new();
    io::stdin().read_to_end(&mut message)?;
    let mut buffers = Buffers::new(Form::Small);
    match buffers.read(&message) {
        Ok(table) => orders(&table).map(|()| ExitCode::SUCCESS),
        Err(refusal) => {
            println!("refused: {} at {}", refusal.number as u8, refusal.place);
            Ok(ExitCode::FAILURE)
        }
    }
}

fn orders(table: &Table) -> io::Result<()> {
    for order in table.rows().filter(|segment| segment.kind() == Kind::OBR) {
        show(table, "order", order.row().field(4).subfield(2), "\n")?;
        values(table, order.row())?;
    }
    Ok(())
}

/// The values come in row order, one for each result of type NM.
fn values(table: &Table, order: Row) -> io::Result<()> {
    let values = match table.order_values(order) {
        Ok(values) => values,
        Err(refusal) => {
            println!("{}", refused(refusal));
            return Ok(());
        }
    };
    let numeric = table
        .children(order, Kind::OBX)
        .filter(|result| table.leaf(result.field(3)).text_or(b"") == b"NM");
    for (result, value) in numeric.zip(values) {
        show(table, " ", result.field(4), ": ")?;
        match value {
            Ok(value) => println!(
                "whole {}, decimals {}, text {value}",
                value.whole(),
                value.decimals()
            ),
            Err(refusal) => println!("{}", refused(refusal)),
        }
    }
    Ok(())
}

fn refused(refusal: Refusal) -> String {
    format!("refused: {}", refusal.number as u8)
}

fn show(table: &Table, what: &str, place: Place, end: &str) -> io::Result<()> {
    let text = table.leaf(place).text_or(b"");
    io::stdout().write_all(&[what.as_bytes(), b" ", text, end.as_bytes()].concat())
}
