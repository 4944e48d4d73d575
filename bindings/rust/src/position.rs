//! Line and column of an offset.

use crate::answer;
use crate::ffi;

/// Line and column as an editor shows them, both counted from 1.
#[derive(Clone, Copy, Debug, PartialEq, Eq, PartialOrd, Ord, Hash)]
pub struct Position {
    /// One more than there are CRs before the offset.
    pub line: usize,
    /// One more than there are bytes since the last of these CRs, or since the message's start. An LF behind a CR is such a byte.
    pub column: usize,
}

/// The position of an offset in a message of any length: of the place of [`Number::ControlByte`](crate::Number::ControlByte),
/// [`Number::LongLine`](crate::Number::LongLine) or [`Number::OpenLine`](crate::Number::OpenLine), of a [`Line`](crate::Line), or of a
/// [`RowPlace`](crate::RowPlace). An offset past the message's end counts as that end.
///
/// ```
/// use sargaceu::{lines, position, Position};
/// let message = b"H|~^\\&|||LAB||ORU\rP|1\tA\rL|1\r";
/// let fault = lines(message).last().unwrap().unwrap_err();
/// assert_eq!(position(message, fault.place), Position { line: 2, column: 4 });
/// assert_eq!(position(message, usize::MAX), Position { line: 4, column: 1 });
/// ```
pub fn position(message: &[u8], offset: usize) -> Position {
    let mut answer = [0; answer::POSITION_ANSWER];
    // SAFETY: each pointer and its count are those of a slice that lives on during the call. The answer, which is written, is borrowed as
    // `&mut`, so it overlaps nothing.
    let line = unsafe {
        ffi::sargaceu_position(
            message.as_ptr(),
            message.len(),
            offset,
            answer.as_mut_ptr(),
            answer.len(),
        )
    };
    let [column] = answer;
    Position { line, column }
}
