//! Where rows stand in a message's file.

use crate::answer;
use crate::ffi;
use std::iter::FusedIterator;

/// Where a row stands in its message. A row is no line of the file: a segment may go on in A lines, and blank lines vanish.
#[derive(Clone, Copy, Debug, PartialEq, Eq, Hash)]
pub struct RowPlace {
    /// The offset at which its first line begins, from 0.
    pub start: usize,
    /// How many lines it takes, A lines among them: at least one.
    pub lines: usize,
}

/// Where the row with a number stands in a message of any length and either form, rows counting from 1 as the reader counts them: the place of
/// [`Number::UnknownKind`](crate::Number::UnknownKind) and [`Number::Misplaced`](crate::Number::Misplaced) goes in as it is, and so does the
/// [number](crate::Row::number) of each row of the table that the message reads to. Nothing where there is no such row, as behind the last one where
/// the L is missing. The rows of a refused message are those of its lines before the first fault; A lines in front of every other line are of no row.
///
/// Each call goes from the message's start to the row; [`rows_in`] goes through all rows.
///
/// ```
/// use sargaceu::{position, row_place, Buffers, Form, Number};
/// let message = b"H|~^\\&|||LAB||ORU\rP|1|\rA|1001\r\n\r\nOBX|1\rL|1\r";
/// let refusal = Buffers::new(Form::Small).read(message).unwrap_err();
/// assert_eq!((refusal.number, refusal.place), (Number::Misplaced, 3));
/// let place = row_place(message, refusal.place).unwrap();
/// assert_eq!(message[place.start..][..5], *b"OBX|1");
/// assert_eq!(position(message, place.start).line, 5);
/// assert_eq!(row_place(message, 2).unwrap().lines, 2);
/// assert_eq!(row_place(message, 5), None);
/// ```
pub fn row_place(message: &[u8], row: usize) -> Option<RowPlace> {
    let mut answer = [0; answer::ROW_ANSWER];
    // SAFETY: each pointer and its count are those of a slice that lives on during the call. The answer, which is written, is borrowed as
    // `&mut`, so it overlaps nothing.
    let lines = unsafe {
        ffi::sargaceu_row_place(
            message.as_ptr(),
            message.len(),
            row,
            answer.as_mut_ptr(),
            answer.len(),
        )
    };
    let [start] = answer;
    (lines != 0).then(|| RowPlace { start, lines })
}

/// Where all rows of a message of any length stand, one after the other: the k-th is what [`row_place`] answers to k. Each line is looked at twice at
/// most, apart from those up to the end of the first row.
///
/// ```
/// use sargaceu::{position, rows_in};
/// let message = b"H|~^\\&|||LAB||ORU\rP|1|\rA|1001\rOBR|1\rOBX|1|NM|GLY||1.2\rL|1\r";
/// let lines = rows_in(message).map(|row| position(message, row.start).line);
/// assert!(lines.eq([1, 2, 4, 5, 6]));
/// ```
pub fn rows_in(message: &[u8]) -> RowsIn<'_> {
    RowsIn {
        message,
        // A lines in front are of no row, so the first one is asked for by its number
        at: row_place(message, 1).map_or(message.len(), |first| first.start),
    }
}

/// The places of the rows of a message, from [`rows_in`].
#[derive(Clone, Debug)]
pub struct RowsIn<'a> {
    message: &'a [u8],
    at: usize,
}

impl Iterator for RowsIn<'_> {
    type Item = RowPlace;

    fn next(&mut self) -> Option<RowPlace> {
        let (lines, next) = row_at(self.message, self.at);
        let start = self.at;
        self.at = next;
        (lines != 0).then(|| RowPlace { start, lines })
    }
}

impl FusedIterator for RowsIn<'_> {}

/// How many lines the one at a place and the A lines behind it are, and the place behind them: no lines, and the place itself, at the message's end
/// and at a fault.
fn row_at(message: &[u8], at: usize) -> (usize, usize) {
    let mut answer = [0; answer::ROW_ANSWER];
    // SAFETY: as in `row_place`.
    let lines = unsafe {
        ffi::sargaceu_row_at(
            message.as_ptr(),
            message.len(),
            at,
            answer.as_mut_ptr(),
            answer.len(),
        )
    };
    let [next] = answer;
    (lines, next)
}
