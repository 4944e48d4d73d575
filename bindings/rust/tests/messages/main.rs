//! The calls that a results store makes, on small messages, on the sample report and on messages at the limits of both forms. What the tests
//! count is counted from the message.

mod any;
mod forms;
mod indexing;
mod leaves;
mod names;
mod orders;
mod places;
mod reading;
mod rows;
mod screening;
mod values;
mod walking;
mod watching;
mod widening;
mod writing;

use sargaceu::Row;

/// A patient with one order and one result.
const SMALL: &[u8] = b"H|~^\\&|||LAB||ORU\rP|1||||DUPONT~JEAN\rOBR|1\rOBX|1|NM|GLY||1.2\rL|1\r";

/// Two patients, comments, and a report that is cut into A lines.
const REPORT: &[u8] = include_bytes!("../../../../samples/report.hpr");

/// Two patients with all that the rules for screening ask for; a comment is cut into A lines.
const SCREENING: &[u8] = include_bytes!("../../../../samples/screening.hpr");

/// The same, with a code of the laboratory's own where the second patient lives.
const SCREENING_REFUSED: &[u8] = include_bytes!("../../../../samples/screening-refused.hpr");

/// The joined segments of a message whose field separator is `|` and whose lines all end in CR, joined by hand.
fn segments(message: &[u8]) -> Vec<Vec<u8>> {
    let mut segments: Vec<Vec<u8>> = Vec::new();
    for line in message.split(|&byte| byte == b'\r' || byte == b'\n') {
        match line.strip_prefix(b"A|") {
            Some(rest) => segments.last_mut().unwrap().extend(rest),
            None if line.is_empty() => (),
            None => segments.push(line.to_vec()),
        }
    }
    segments
}

/// How many leaves a segment has: one more than its splitting bytes, but for the header's own.
fn leaves(segment: &[u8]) -> usize {
    let splits = |bytes: &[u8]| bytes.iter().filter(|&byte| b"|~^&".contains(byte)).count();
    match segment.strip_prefix(b"H|~^\\&|") {
        Some(rest) => 3 + splits(rest),
        None => 1 + splits(segment),
    }
}

/// The row of a number that one can have.
fn row(number: usize) -> Row {
    Row::new(number).unwrap()
}
