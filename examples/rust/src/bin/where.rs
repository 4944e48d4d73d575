//! Where things stand in a file: takes a message from standard input and prints the line of each row, as an editor counts lines. Of a refused
//! message it prints number and place, line and column of that place, and where a segment is to blame the kinds that may come there.

use sargaceu::{latin1, lines, position, row_place, rows_in};
use sargaceu::{Buffers, Form, Kind, Number, Refusal, RowPlace, Watcher};
use std::io::{self, Read};
use std::process::ExitCode;
use std::str::FromStr;

fn main() -> io::Result<ExitCode> {
    let mut message = Vec::new();
    io::stdin().read_to_end(&mut message)?;
    if let Err(refusal) = Buffers::new(Form::Large).read(&message) {
        show_refusal(&message, refusal);
        return Ok(ExitCode::FAILURE);
    }
    // the line is counted on from row to row: each byte is looked at a few times, however many rows there are
    let (mut line, mut counted) = (1, 0);
    for (row, place) in (1..).zip(rows_in(&message)) {
        let passed = &message[counted..place.start];
        line += position(passed, passed.len()).line - 1;
        counted = place.start;
        print!("row {row}: line {line}");
        match place.lines {
            1 => println!(),
            lines => println!(", in {lines} lines"),
        }
    }
    Ok(ExitCode::SUCCESS)
}

fn show_refusal(message: &[u8], refusal: Refusal) {
    println!("refused: {} at {}", refusal.number as u8, refusal.place);
    match refusal.number {
        Number::ControlByte | Number::LongLine | Number::OpenLine => {
            show_position(message, refusal.place);
        }
        Number::UnknownKind | Number::Misplaced => {
            print!("row {}: ", refusal.place);
            // there is no such row where the L is missing
            let place = row_place(message, refusal.place);
            show_position(message, place.map_or(message.len(), |place| place.start));
            show_next(message, refusal.place);
        }
        _ => (),
    }
}

fn show_position(message: &[u8], offset: usize) {
    let position = position(message, offset);
    println!("line {}, column {}", position.line, position.column);
}

/// The kinds that may come in a row: a watcher is told those of the rows before it. A header that names no context allows no order.
fn show_next(message: &[u8], row: usize) {
    let mut before = rows_in(message).take(row - 1).peekable();
    let context = before.peek().and_then(|&header| named(message, header, 7));
    let mut watcher = match context {
        Some(context) => Watcher::begin(context),
        None => return,
    };
    for kind in before.filter_map(|place| named::<Kind>(message, place, 1)) {
        watcher.tell(kind);
    }
    print!("may come:");
    for kind in watcher.next_kinds() {
        print!(" {kind}");
    }
    match watcher.next_kinds().next() {
        Some(_) => println!(),
        None => println!(" nothing"),
    }
}

/// What a field of a row names, by its lines as they are joined: an addendum goes on behind its A and the field separator.
fn named<Name: FromStr>(message: &[u8], place: RowPlace, field: usize) -> Option<Name> {
    let mut joined = Vec::new();
    let taken = lines(&message[place.start..]).take(place.lines);
    for (k, line) in taken.filter_map(Result::ok).enumerate() {
        joined.extend(&line.bytes()[if k == 0 { 0 } else { 2 }..]);
    }
    let text = joined.split(|&byte| byte == message[1]).nth(field - 1)?;
    latin1(text).parse().ok()
}
