//! The index by analysis code, and the tally beside it.

use crate::answer;
use crate::ffi;
use crate::number::{Number, Refusal};
use crate::size;
use std::fmt;

/// What the planner's questions answer where an index is lent.
mod asked {
    pub const NAMED: u8 = 1;
    pub const NOT_NAMED: u8 = 0;
}

/// Codes of analyses (10.4.1, in its first repetition) in rising byte order, up to [`size::INDEX_CODES_MOST`] of them, each with the count of the
/// OBX rows that carried it in all messages that were read with the index. [`Buffers::read_indexed`](crate::Buffers::read_indexed) counts them.
///
/// ```
/// use sargaceu::{Buffers, Form, Index, Tally};
/// let (mut buffers, mut index, mut tally) = (Buffers::new(Form::Small), Index::new(), Tally::default());
/// let message = b"H|~^\\&|||LAB||ORU\rP|1\rOBR|1\rOBX|1|NM|K||5.6\rOBX|2|NM|GLY||1.2\rOBX|3|NM|K||5.4\rL|1\r";
/// buffers.read_indexed(message, &mut index, &mut tally)?;
/// assert!(index.iter().eq([(&b"GLY"[..], 1), (&b"K"[..], 2)]));
/// assert_eq!(index.count(b"K"), Some(2));
/// assert_eq!((tally.messages, tally.segments, tally.results), (1, 7, 3));
/// # Ok::<(), sargaceu::Refusal>(())
/// ```
#[derive(Clone)]
pub struct Index {
    // always sound: begun with zeros or judged when it was taken, and only the library changes it
    pub(crate) codes: Box<[u8]>,
    pub(crate) counts: Box<[u32]>,
}

impl Index {
    /// An index that names no code.
    pub fn new() -> Index {
        Index {
            codes: vec![0; size::INDEX_CODES_BYTES].into(),
            counts: vec![0; size::INDEX_COUNTS].into(),
        }
    }

    /// The index that [`places`](Index::places) and [`counts`](Index::counts) gave and that was stored: refused with [`Number::NoIndex`] where the
    /// bytes and numbers are none, as a file that was damaged may be.
    ///
    /// ```
    /// use sargaceu::{Index, Number};
    /// let index = Index::new();
    /// assert!(Index::stored(index.places(), index.counts()).is_ok());
    /// let refusal = Index::stored(&index.places()[1..], index.counts()).unwrap_err();
    /// assert_eq!(refusal.number, Number::NoIndex);
    /// ```
    pub fn stored(places: &[u8], counts: &[u32]) -> Result<Index, Refusal> {
        // SAFETY: each pointer and its count are those of a slice that lives on during the call, which only reads.
        let sound = unsafe {
            ffi::sargaceu_index_sound(places.as_ptr(), places.len(), counts.as_ptr(), counts.len())
        };
        if !sound {
            return Err(Refusal {
                number: Number::NoIndex,
                place: 0,
            });
        }
        Ok(Index {
            codes: places.into(),
            counts: counts.into(),
        })
    }

    /// The bytes of the index, to be stored: [`size::INDEX_PLACE`] for each place, the length of its code first. What stands past the named codes
    /// means nothing.
    pub fn places(&self) -> &[u8] {
        &self.codes
    }

    /// The numbers of the index, to be stored: how many codes are named, and behind it a count for each place.
    pub fn counts(&self) -> &[u32] {
        &self.counts
    }

    /// How many codes are named.
    pub fn codes(&self) -> usize {
        let mut answer = [0; answer::CODES_ANSWER];
        // SAFETY: each pointer and its count are those of a slice that lives on during the call. The answer, which is written, is borrowed
        // as `&mut`, so it overlaps nothing.
        let number = unsafe {
            ffi::sargaceu_index_codes(
                self.codes.as_ptr(),
                self.codes.len(),
                self.counts.as_ptr(),
                self.counts.len(),
                answer.as_mut_ptr(),
                answer.len(),
            )
        };
        let [named] = told(number, answer).expect("an index says how many codes it names");
        named
    }

    /// How often a code was counted; nothing where the index does not name it.
    pub fn count(&self, code: &[u8]) -> Option<u32> {
        let mut answer = [0; answer::COUNT_ANSWER];
        // SAFETY: as in `codes`.
        let number = unsafe {
            ffi::sargaceu_index_count(
                self.codes.as_ptr(),
                self.codes.len(),
                self.counts.as_ptr(),
                self.counts.len(),
                code.as_ptr(),
                code.len(),
                answer.as_mut_ptr(),
                answer.len(),
            )
        };
        told(number, answer).map(|[count]| count as u32)
    }

    /// The k-th code in byte order, from 1 on, and how often it was counted; nothing where k is 0 or over [`codes`](Index::codes).
    pub fn code(&self, k: usize) -> Option<(&[u8], u32)> {
        let mut answer = [0; answer::CODE_ANSWER];
        // SAFETY: as in `codes`.
        let number = unsafe {
            ffi::sargaceu_index_code(
                self.codes.as_ptr(),
                self.codes.len(),
                self.counts.as_ptr(),
                self.counts.len(),
                k,
                answer.as_mut_ptr(),
                answer.len(),
            )
        };
        told(number, answer)
            .map(|[start, length, count]| (&self.codes[start..start + length], count as u32))
    }

    /// All codes in byte order, each with its count.
    pub fn iter(&self) -> impl Iterator<Item = (&[u8], u32)> + '_ {
        (1..=self.codes()).map_while(|k| self.code(k))
    }
}

/// What the library tells by a number and an answer; nothing where the index names no such code.
fn told<const N: usize>(number: u8, answer: [usize; N]) -> Option<[usize; N]> {
    assert!(
        number == asked::NAMED || number == asked::NOT_NAMED,
        "an index of this crate is sound"
    );
    (number == asked::NAMED).then(|| answer)
}

impl Default for Index {
    fn default() -> Index {
        Index::new()
    }
}

impl fmt::Debug for Index {
    fn fmt(&self, f: &mut fmt::Formatter<'_>) -> fmt::Result {
        f.debug_map()
            .entries(
                self.iter()
                    .map(|(code, count)| (String::from_utf8_lossy(code), count)),
            )
            .finish()
    }
}

/// What was counted beside an [`Index`]: zeros begin it.
#[derive(Clone, Copy, Debug, Default, PartialEq, Eq, Hash)]
pub struct Tally {
    /// The messages that were read.
    pub messages: u32,
    /// Their segments.
    pub segments: u32,
    /// Their results that have a code, which are those that were counted.
    pub results: u32,
}

impl Tally {
    /// Its three numbers, as the library is lent them.
    pub(crate) fn numbers(self) -> [u32; size::TALLY] {
        [self.messages, self.segments, self.results]
    }

    /// The tally that three numbers are.
    pub(crate) fn of(numbers: [u32; size::TALLY]) -> Tally {
        let [messages, segments, results] = numbers;
        Tally {
            messages,
            segments,
            results,
        }
    }
}
