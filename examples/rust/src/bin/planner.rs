//! The planner's day: takes the messages that its arguments name, each in a file, reads them one after another with one index, and shows how often
//! each analysis (10.4.1) was asked for. An index that is kept from one day to the next is stored where this one is shown.

use sargaceu::{Buffers, Form, Index, Tally};
use std::io::{self, Write};
use std::{env, fs};

fn main() -> io::Result<()> {
    let (mut buffers, mut index, mut tally) =
        (Buffers::new(Form::Small), Index::new(), Tally::default());
    for name in env::args().skip(1) {
        // a message that is refused changes nothing, so it can be mended and read again
        if let Err(refusal) = buffers.read_indexed(&fs::read(&name)?, &mut index, &mut tally) {
            println!(
                "{name} refused: {} at {}",
                refusal.number as u8, refusal.place
            );
        }
    }
    let mut out = io::stdout();
    for (code, count) in index.iter() {
        write!(out, "{count:6} ")?;
        out.write_all(code)?;
        writeln!(out)?;
    }
    writeln!(
        out,
        "{} messages, {} segments, {} results",
        tally.messages, tally.segments, tally.results
    )
}
