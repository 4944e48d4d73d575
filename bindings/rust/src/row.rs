//! The numbers of rows.

use crate::place::Place;
use crate::unknown::Unknown;
use std::fmt;

/// The type of the numbers in a table's rows. A `usize` has room for each: the archive is for x86-64.
pub type Entry = u32;

/// The number of a segment row, which counts from 1. It is the number of a joined segment, never of a line of the file.
///
/// ```
/// use sargaceu::Row;
/// assert_eq!(Row::new(1), Some(Row::FIRST));
/// assert_eq!(Row::new(0), None);
/// assert_eq!(Row::new(10).map(Row::number), Some(10));
/// ```
#[derive(Clone, Copy, Debug, PartialEq, Eq, PartialOrd, Ord, Hash)]
pub struct Row(Entry);

impl Row {
    /// The first row of every table: its header, which owns every patient.
    pub const FIRST: Row = Row(1);

    /// The row of a number: none for 0 and for numbers that no row can have.
    pub fn new(number: usize) -> Option<Row> {
        Row::try_from(number).ok()
    }

    /// The row's number.
    pub fn number(self) -> usize {
        self.into()
    }

    /// The place of the first leaf of a field in this row's segment: repetition, subfield and sub-subfield are 1.
    ///
    /// ```
    /// # let row = sargaceu::Row::FIRST;
    /// let place = row.field(4).subfield(2);
    /// assert_eq!((place.field, place.repetition, place.subfield, place.subsubfield), (4, 1, 2, 1));
    /// ```
    pub fn field(self, field: Entry) -> Place {
        Place {
            segment: self,
            field,
            repetition: 1,
            subfield: 1,
            subsubfield: 1,
        }
    }
}

const UNKNOWN: Unknown = Unknown { what: "row" };

impl TryFrom<Entry> for Row {
    type Error = Unknown;

    fn try_from(number: Entry) -> Result<Row, Unknown> {
        match number {
            0 => Err(UNKNOWN),
            _ => Ok(Row(number)),
        }
    }
}

impl TryFrom<usize> for Row {
    type Error = Unknown;

    fn try_from(number: usize) -> Result<Row, Unknown> {
        Entry::try_from(number).map_err(|_| UNKNOWN)?.try_into()
    }
}

impl From<Row> for Entry {
    fn from(row: Row) -> Entry {
        row.0
    }
}

impl From<Row> for usize {
    fn from(row: Row) -> usize {
        row.0 as usize
    }
}

impl fmt::Display for Row {
    fn fmt(&self, f: &mut fmt::Formatter<'_>) -> fmt::Result {
        self.0.fmt(f)
    }
}
