//! The leaves of a table: by their place, and all in row order.

use crate::answer;
use crate::ffi;
use crate::place::Place;
use crate::row::{Entry, Row};
use crate::size;
use crate::sought::Sought;
use crate::table::Table;
use crate::text::latin1;
use std::fmt;
use std::iter::FusedIterator;
use std::slice::ChunksExact;

/// A leaf: its place and its text, which may be empty. It is shown as the string that its bytes are in ISO 8859-1.
///
/// ```
/// # let mut buffers = sargaceu::Buffers::new(sargaceu::Form::Small);
/// # let table = buffers.read(b"H|~^\\&|||LAB||ADM\rP|1||||M\xc9NARD\rL|1\r")?;
/// # let patient = table.next_row(None, sargaceu::Kind::P, Some(sargaceu::Row::FIRST)).unwrap();
/// let name = table.leaf(patient.field(6)).found().unwrap();
/// assert_eq!(name.bytes(), b"M\xc9NARD");
/// assert_eq!(name.to_string(), "MÉNARD");
/// # Ok::<(), sargaceu::Refusal>(())
/// ```
#[derive(Clone, Copy, PartialEq, Eq, Hash)]
pub struct Leaf<'a> {
    place: Place,
    bytes: &'a [u8],
}

impl<'a> Leaf<'a> {
    /// Its place.
    pub fn place(&self) -> Place {
        self.place
    }

    /// Its text, as it stood in the message.
    pub fn bytes(&self) -> &'a [u8] {
        self.bytes
    }

    /// The leaf of a place whose text starts in an area of text and has a length, where the area reaches that far.
    fn cut(place: Place, text: &'a [u8], start: usize, length: usize) -> Option<Leaf<'a>> {
        let bytes = text.get(start..)?.get(..length)?;
        Some(Leaf { place, bytes })
    }

    /// The leaf that a leaf row states.
    fn of(row: &[Entry], text: &'a [u8]) -> Option<Leaf<'a>> {
        let row: [Entry; size::LEAF_ROW] = row.try_into().ok()?;
        let [segment, field, repetition, subfield, subsubfield, start, length] = row;
        let place = Place {
            segment: Row::try_from(segment).ok()?,
            field,
            repetition,
            subfield,
            subsubfield,
        };
        Leaf::cut(place, text, start as usize, length as usize)
    }
}

impl fmt::Display for Leaf<'_> {
    fn fmt(&self, f: &mut fmt::Formatter<'_>) -> fmt::Result {
        f.pad(&latin1(self.bytes))
    }
}

impl fmt::Debug for Leaf<'_> {
    fn fmt(&self, f: &mut fmt::Formatter<'_>) -> fmt::Result {
        f.debug_struct("Leaf")
            .field("place", &self.place)
            .field("text", &latin1(self.bytes))
            .finish()
    }
}

impl<'a> Table<'a> {
    /// The leaf at a place, in one of three ways: found with a text, found empty, not there. A leaf that was sent empty is not one that was
    /// never sent.
    ///
    /// It goes over the leaves of the place's segment alone. Of every table that some message reads to, as this one is, a search over all
    /// leaves would answer the same.
    ///
    /// ```
    /// use sargaceu::{Buffers, Form, Row, Sought};
    /// let mut buffers = Buffers::new(Form::Small);
    /// let table = buffers.read(b"H|~^\\&|||LAB~L7||ERR\rERR|1\rL|1\r")?;
    /// match table.leaf(Row::FIRST.field(5).subfield(2)) {
    ///     Sought::Found(leaf) => assert_eq!(leaf.bytes(), b"L7"),
    ///     Sought::Empty | Sought::NotThere => unreachable!(),
    /// }
    /// assert_eq!(table.leaf(Row::FIRST.field(4)), Sought::Empty);
    /// assert_eq!(table.leaf(Row::FIRST.field(8)), Sought::NotThere);
    /// # Ok::<(), sargaceu::Refusal>(())
    /// ```
    pub fn leaf(&self, place: Place) -> Sought<'a> {
        let card = self.card().numbers();
        let (segments, leaves, text) = (self.segment_rows(), self.leaf_rows(), self.text());
        let mut answer = [0; answer::LEAF_ANSWER];
        // SAFETY: each pointer and its count are those of a slice that lives on during the call. The answer, which is written, is
        // borrowed as `&mut`, so it overlaps nothing.
        let number = unsafe {
            ffi::sargaceu_find_leaf_in_segment(
                card.as_ptr(),
                card.len(),
                segments.as_ptr(),
                segments.len(),
                leaves.as_ptr(),
                leaves.len(),
                text.as_ptr(),
                text.len(),
                place.segment.into(),
                place.field,
                place.repetition,
                place.subfield,
                place.subsubfield,
                answer.as_mut_ptr(),
                answer.len(),
            )
        };
        let [start, length] = answer;
        Sought::of(number, Leaf::cut(place, text, start, length))
            .expect("the library answers in one of three ways, and finds no leaf beyond the text")
    }

    /// All leaves of the table, in row order. [`Segment::leaves`](crate::Segment::leaves) has those of one row.
    ///
    /// ```
    /// # let mut buffers = sargaceu::Buffers::new(sargaceu::Form::Small);
    /// # let table = buffers.read(b"H|~^\\&|||LAB||ERR\rERR|1\rL|1\r")?;
    /// assert_eq!(table.leaves().len(), table.card().leaves);
    /// assert_eq!(table.leaves().next().unwrap().bytes(), b"H");
    /// # Ok::<(), sargaceu::Refusal>(())
    /// ```
    pub fn leaves(&self) -> Leaves<'a> {
        Leaves::of(self.leaf_rows(), self.text())
    }
}

/// Leaves in row order, from [`Table::leaves`] or [`Segment::leaves`](crate::Segment::leaves).
#[derive(Clone, Debug)]
pub struct Leaves<'a> {
    rows: ChunksExact<'a, Entry>,
    text: &'a [u8],
}

impl<'a> Leaves<'a> {
    /// The leaves of some leaf rows.
    pub(crate) fn of(rows: &'a [Entry], text: &'a [u8]) -> Leaves<'a> {
        Leaves {
            rows: rows.chunks_exact(size::LEAF_ROW),
            text,
        }
    }
}

impl<'a> Iterator for Leaves<'a> {
    type Item = Leaf<'a>;

    fn next(&mut self) -> Option<Leaf<'a>> {
        Leaf::of(self.rows.next()?, self.text)
    }

    fn size_hint(&self) -> (usize, Option<usize>) {
        self.rows.size_hint()
    }
}

impl DoubleEndedIterator for Leaves<'_> {
    fn next_back(&mut self) -> Option<Self::Item> {
        Leaf::of(self.rows.next_back()?, self.text)
    }
}

impl ExactSizeIterator for Leaves<'_> {}
impl FusedIterator for Leaves<'_> {}
