//! Moves one table of the archive over: takes it from standard input, widens it, and prints each row whose owner is another one now. The table
//! comes as text, to show what it has: five numbers, the card; four for each segment row; seven for each leaf row; a line feed, and the text.

use sargaceu::{size, Buffers, Card, Context, Form, Row};
use std::io::{self, Read};
use std::process::ExitCode;

/// A table as the archive keeps it.
struct Archived {
    card: Card,
    segments: Vec<u16>,
    leaves: Vec<u16>,
    text: Vec<u8>,
}

fn main() -> io::Result<ExitCode> {
    let mut input = Vec::new();
    io::stdin().read_to_end(&mut input)?;
    let old = match take_table(&input) {
        Some(old) => old,
        None => return Ok(ExitCode::from(2)),
    };
    let mut buffers = Buffers::new(Form::Small);
    let table = match buffers.widen(old.card, &old.segments, &old.leaves, &old.text) {
        Ok(table) => table,
        Err(refusal) => {
            println!("refused: {} at {}", refusal.number as u8, refusal.place);
            return Ok(ExitCode::FAILURE);
        }
    };
    for (segment, before) in table.rows().zip(old.segments.chunks(size::SEGMENT_ROW)) {
        let (row, owner) = (segment.row(), segment.owner().map_or(0, Row::number));
        if owner != usize::from(before[1]) {
            println!(
                "row {row} belongs to row {owner}, and belonged to row {}",
                before[1]
            );
        }
    }
    let card = table.card();
    println!(
        "widened: {} segments, {} leaves, {} bytes of text",
        card.segments, card.leaves, card.text
    );
    Ok(ExitCode::SUCCESS)
}

/// The table that stands in a text; none where it is not whole.
fn take_table(input: &[u8]) -> Option<Archived> {
    let mut lines = input.split(|&byte| byte == b'\n');
    let card = take_numbers(lines.next()?)?;
    let count = |number: usize| card.get(number).copied().map(usize::from);
    let card = Card {
        separator: u8::try_from(count(0)?).ok()?,
        context: Context::try_from(*card.get(1)?).ok()?,
        segments: count(2)?,
        leaves: count(3)?,
        text: count(4)?,
    };
    let mut take_rows = |rows: usize| -> Option<Vec<u16>> {
        let rows: Option<Vec<_>> = (0..rows).map(|_| take_numbers(lines.next()?)).collect();
        Some(rows?.concat())
    };
    let (segments, leaves) = (take_rows(card.segments)?, take_rows(card.leaves)?);
    let text = lines.next()?.get(..card.text)?.to_vec();
    Some(Archived {
        card,
        segments,
        leaves,
        text,
    })
}

/// The numbers of a line.
fn take_numbers(line: &[u8]) -> Option<Vec<u16>> {
    let line = std::str::from_utf8(line).ok()?;
    line.split(' ').map(|number| number.parse().ok()).collect()
}
