//! From patient to orders to results, with the comments of each: takes a message from standard input and prints texts as they are.

use sargaceu::{Buffers, Entry, Form, Kind, Place, Row, Table};
use std::io::{self, Read, Write};
use std::process::ExitCode;

fn main() -> io::Result<ExitCode> {
    let mut message = Vec::new();
    io::stdin().read_to_end(&mut message)?;
    let mut buffers = Buffers::new(Form::Small);
    match buffers.read(&message) {
        Ok(table) => patients(&table).map(|()| ExitCode::SUCCESS),
        Err(refusal) => {
            println!("refused: {} at {}", refusal.number as u8, refusal.place);
            Ok(ExitCode::FAILURE)
        }
    }
}

/// The header, which is the first row, owns every patient.
fn patients(table: &Table) -> io::Result<()> {
    for patient in table.children(Row::FIRST, Kind::P) {
        show(table, "patient", patient.field(6))?;
        comments(table, patient)?;
        for order in table.children(patient, Kind::OBR) {
            show(table, " order", order.field(4).subfield(2))?;
            comments(table, order)?;
            results(table, order)?;
        }
    }
    Ok(())
}

fn results(table: &Table, order: Row) -> io::Result<()> {
    for result in table.children(order, Kind::OBX) {
        show(table, "  result", result.field(4))?;
        show_whole(table, "    value", result, 6)?;
        show_whole(table, "    unit", result, 7)?;
        comments(table, result)?;
    }
    Ok(())
}

/// A comment belongs to the segment before it, so it is found under that row.
fn comments(table: &Table, row: Row) -> io::Result<()> {
    let mut comments = table.children(row, Kind::C);
    comments.try_for_each(|comment| show_whole(table, "    comment", comment, 4))
}

/// A line with the leaf at a place: a blank where it was sent empty, a dash where it was never sent.
fn show(table: &Table, what: &str, place: Place) -> io::Result<()> {
    let text = table.leaf(place).text_or(b"-");
    io::stdout().write_all(&[what.as_bytes(), b" ", text, b"\n"].concat())
}

/// A line with every leaf of a field: a unit of `10^9/L` is two repetitions, and the second line of a text is one.
fn show_whole(table: &Table, what: &str, row: Row, field: Entry) -> io::Result<()> {
    let leaves = table
        .row(row)
        .into_iter()
        .flat_map(|segment| segment.leaves());
    let mut texts: Vec<_> = leaves
        .filter(|leaf| leaf.place().field == field)
        .map(|leaf| leaf.bytes())
        .collect();
    if texts.is_empty() {
        texts.push(b"-");
    }
    io::stdout().write_all(&[what.as_bytes(), b" ", &texts.join(&b" / "[..]), b"\n"].concat())
}
