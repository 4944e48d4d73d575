//! The line walk.

use crate::answer;
use crate::ffi;
use crate::number::Refusal;
use crate::text::latin1;
use std::fmt;
use std::iter::FusedIterator;

/// A line of a message, without its CR. It is shown as the string that its bytes are in ISO 8859-1.
#[derive(Clone, Copy, Debug, PartialEq, Eq, Hash)]
pub struct Line<'a> {
    place: usize,
    bytes: &'a [u8],
}

impl<'a> Line<'a> {
    /// The offset of its first byte in the message, from 0.
    pub fn place(&self) -> usize {
        self.place
    }

    /// Its bytes, at least one.
    pub fn bytes(&self) -> &'a [u8] {
        self.bytes
    }
}

impl fmt::Display for Line<'_> {
    fn fmt(&self, f: &mut fmt::Formatter<'_>) -> fmt::Result {
        f.pad(&latin1(self.bytes))
    }
}

/// The lines of a message of any length as they stand, A lines among them. The walk ends at the message's end, or with the first fault:
/// a control byte, a line that is too long or one that is not closed, with its offset.
///
/// ```
/// use sargaceu::{lines, Number};
/// let mut walk = lines(b"P|1\r\nL|1\rA|");
/// assert_eq!(walk.next().unwrap()?.bytes(), b"P|1");
/// assert_eq!(walk.next().unwrap()?.place(), 5);
/// let fault = walk.next().unwrap().unwrap_err();
/// assert_eq!((fault.number, fault.place), (Number::OpenLine, 11));
/// assert!(walk.next().is_none());
/// # Ok::<(), sargaceu::Refusal>(())
/// ```
pub fn lines(message: &[u8]) -> Lines<'_> {
    Lines {
        message,
        at: 0,
        faulty: false,
    }
}

/// The lines of a message, from [`lines`].
#[derive(Clone, Debug)]
pub struct Lines<'a> {
    message: &'a [u8],
    at: usize,
    faulty: bool,
}

impl<'a> Iterator for Lines<'a> {
    type Item = Result<Line<'a>, Refusal>;

    fn next(&mut self) -> Option<Self::Item> {
        if self.faulty {
            return None;
        }
        match line(self.message, self.at) {
            Ok((end, next)) => {
                let place = self.at;
                self.at = next;
                // an empty line is the end: the next one would begin at the place itself
                let bytes = self.message.get(place..end)?;
                (next != place).then(|| Ok(Line { place, bytes }))
            }
            Err(fault) => {
                self.faulty = true;
                Some(Err(fault))
            }
        }
    }
}

impl FusedIterator for Lines<'_> {}

/// Where the line that begins at a place ends, and where the next one begins: both at the place itself where the message is over.
fn line(message: &[u8], at: usize) -> Result<(usize, usize), Refusal> {
    let mut answer = [0; answer::LINE_ANSWER];
    // SAFETY: each pointer and its count are those of a slice that lives on during the call. The answer, which is written, is borrowed as
    // `&mut`, so it overlaps nothing.
    let number = unsafe {
        ffi::sargaceu_line(
            message.as_ptr(),
            message.len(),
            at,
            answer.as_mut_ptr(),
            answer.len(),
        )
    };
    let [end, next] = answer;
    // at a fault the first number is the fault's place
    Refusal::told(number, end)?;
    Ok((end, next))
}
