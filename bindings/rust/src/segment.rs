//! The segment rows of a table.

use crate::kind::Kind;
use crate::leaf::Leaves;
use crate::row::{Entry, Row};
use crate::size;
use crate::table::Table;
use std::iter::FusedIterator;
use std::ops::Range;

/// What a segment row says: its kind, its owner and its leaves.
#[derive(Clone, Debug)]
pub struct Segment<'a> {
    row: Row,
    kind: Kind,
    owner: Option<Row>,
    first_leaf: usize,
    leaves: Leaves<'a>,
}

impl<'a> Segment<'a> {
    /// The number of its row.
    pub fn row(&self) -> Row {
        self.row
    }

    /// Its kind.
    pub fn kind(&self) -> Kind {
        self.kind
    }

    /// The row that it belongs to; H and L belong to none.
    pub fn owner(&self) -> Option<Row> {
        self.owner
    }

    /// The numbers of its leaves, which count from 1 through the whole table: `8..15` are leaves 8 to 14.
    pub fn leaf_range(&self) -> Range<usize> {
        self.first_leaf..self.first_leaf + self.leaves.len()
    }

    /// Its leaves, in row order.
    pub fn leaves(&self) -> Leaves<'a> {
        self.leaves.clone()
    }
}

impl<'a> Table<'a> {
    /// What a segment row says, or nothing where the table has no such row.
    ///
    /// ```
    /// use sargaceu::{Buffers, Form, Kind, Row};
    /// let mut buffers = Buffers::new(Form::Small);
    /// let table = buffers.read(b"H|~^\\&|||LAB||ERR\rERR|1\rL|1\r")?;
    /// let header = table.row(Row::FIRST).unwrap();
    /// assert_eq!((header.kind(), header.owner(), header.leaf_range()), (Kind::H, None, 1..8));
    /// assert!(Row::new(4).and_then(|row| table.row(row)).is_none());
    /// # Ok::<(), sargaceu::Refusal>(())
    /// ```
    pub fn row(&self, row: Row) -> Option<Segment<'a>> {
        let at = (row.number() - 1) * size::SEGMENT_ROW;
        let numbers = self.segment_rows().get(at..at + size::SEGMENT_ROW)?;
        let numbers: [Entry; size::SEGMENT_ROW] = numbers.try_into().ok()?;
        let [kind, owner, first_leaf, leaves] = numbers;
        let first_leaf = first_leaf as usize;
        let start = first_leaf.checked_sub(1)? * size::LEAF_ROW;
        let end = start + leaves as usize * size::LEAF_ROW;
        Some(Segment {
            row,
            kind: kind.try_into().ok()?,
            owner: owner.try_into().ok(),
            first_leaf,
            leaves: Leaves::of(self.leaf_rows().get(start..end)?, self.text()),
        })
    }

    /// All segment rows, from the first to the last.
    ///
    /// ```
    /// # use sargaceu::{Buffers, Form, Kind};
    /// # let mut buffers = Buffers::new(Form::Small);
    /// # let table = buffers.read(b"H|~^\\&|||LAB||ERR\rERR|1\rL|1\r")?;
    /// assert_eq!(table.rows().len(), table.card().segments);
    /// let errors = table.rows().filter(|segment| segment.kind() == Kind::ERR);
    /// assert_eq!(errors.count(), 1);
    /// # Ok::<(), sargaceu::Refusal>(())
    /// ```
    pub fn rows(&self) -> Rows<'a> {
        Rows {
            table: *self,
            numbers: 1..self.card().segments + 1,
        }
    }
}

/// The segment rows of a table, from [`Table::rows`].
#[derive(Clone, Debug)]
pub struct Rows<'a> {
    table: Table<'a>,
    numbers: Range<usize>,
}

impl<'a> Iterator for Rows<'a> {
    type Item = Segment<'a>;

    fn next(&mut self) -> Option<Segment<'a>> {
        self.table.row(Row::new(self.numbers.next()?)?)
    }

    fn size_hint(&self) -> (usize, Option<usize>) {
        self.numbers.size_hint()
    }
}

impl DoubleEndedIterator for Rows<'_> {
    fn next_back(&mut self) -> Option<Self::Item> {
        self.table.row(Row::new(self.numbers.next_back()?)?)
    }
}

impl ExactSizeIterator for Rows<'_> {}
impl FusedIterator for Rows<'_> {}
