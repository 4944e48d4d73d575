//! The rows that belong to a row, by the row finder.

use crate::ffi;
use crate::kind::Kind;
use crate::row::{Entry, Row};
use crate::table::Table;
use std::iter::FusedIterator;

impl<'a> Table<'a> {
    /// The rows of a kind that belong to a row, in row order: the patients of [`Row::FIRST`], the orders of a patient, the results of an
    /// order, the comments of any of them.
    ///
    /// ```
    /// use sargaceu::{Buffers, Form, Kind, Row};
    /// let mut buffers = Buffers::new(Form::Small);
    /// let table = buffers.read(b"H|~^\\&|||LAB||ORU\rP|1\rOBR|1\rOBX|1\rOBX|2\rP|2\rOBR|1\rOBX|1\rL|1\r")?;
    /// let patients: Vec<Row> = table.children(Row::FIRST, Kind::P).collect();
    /// assert_eq!(patients, [Row::new(2).unwrap(), Row::new(6).unwrap()]);
    /// let order = table.children(patients[0], Kind::OBR).next().unwrap();
    /// assert_eq!(table.children(order, Kind::OBX).count(), 2);
    /// # Ok::<(), sargaceu::Refusal>(())
    /// ```
    ///
    /// Orders and invoices belong to their patient in every context, and to no cover:
    ///
    /// ```
    /// # use sargaceu::{Buffers, Form, Kind, Row};
    /// # let mut buffers = Buffers::new(Form::Small);
    /// let table = buffers.read(b"H|~^\\&|||LAB||ORA\rP|1\rAP|1\rAC|1\rAC|2\rOBR|1\rL|1\r")?;
    /// let patient = table.children(Row::FIRST, Kind::P).next().unwrap();
    /// assert_eq!(table.children(patient, Kind::OBR).next(), Row::new(6));
    /// # Ok::<(), sargaceu::Refusal>(())
    /// ```
    pub fn children(&self, owner: Row, kind: Kind) -> Children<'a> {
        Children {
            table: *self,
            owner,
            kind,
            after: None,
            done: false,
        }
    }

    /// The first row after a given one, or of all, with a kind and an owner; H and L have none.
    ///
    /// ```
    /// # use sargaceu::{Buffers, Form, Kind, Row};
    /// # let mut buffers = Buffers::new(Form::Small);
    /// # let table = buffers.read(b"H|~^\\&|||LAB||ERR\rERR|1\rERR|2\rL|1\r")?;
    /// let first = table.next_row(None, Kind::ERR, Some(Row::FIRST));
    /// assert_eq!(first, Row::new(2));
    /// assert_eq!(table.next_row(first, Kind::ERR, Some(Row::FIRST)), Row::new(3));
    /// assert_eq!(table.next_row(first, Kind::L, None), Row::new(4));
    /// # Ok::<(), sargaceu::Refusal>(())
    /// ```
    pub fn next_row(&self, after: Option<Row>, kind: Kind, owner: Option<Row>) -> Option<Row> {
        let card = self.card().numbers();
        let segments = self.segment_rows();
        // SAFETY: each pointer and its count are those of a slice that lives on during the call, and nothing is written.
        let row = unsafe {
            ffi::sargaceu_next_row(
                card.as_ptr(),
                card.len(),
                segments.as_ptr(),
                segments.len(),
                after.map_or(0, Row::number),
                kind.into(),
                owner.map_or(0, Entry::from),
            )
        };
        Row::new(row)
    }
}

/// The rows that belong to a row, from [`Table::children`].
#[derive(Clone, Debug)]
pub struct Children<'a> {
    table: Table<'a>,
    owner: Row,
    kind: Kind,
    after: Option<Row>,
    done: bool,
}

impl Iterator for Children<'_> {
    type Item = Row;

    fn next(&mut self) -> Option<Row> {
        if self.done {
            return None;
        }
        let next = self.table.next_row(self.after, self.kind, Some(self.owner));
        self.after = next;
        // with no row to go on after, the finder would begin again
        self.done = next.is_none();
        next
    }
}

impl FusedIterator for Children<'_> {}
