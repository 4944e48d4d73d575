//! Whether two rows are the same order.

use crate::ffi;
use crate::row::Row;
use crate::table::Table;

impl Table<'_> {
    /// Whether a row of this table and a row of another are the same order: both are OBR, and the leaf of subfield 2 in field 4 is found in
    /// both ([`Sought::Found`](crate::Sought::Found)), byte for byte the same. Where it was sent empty the answer is no: two orders without a
    /// number are not the same one. A row that is not there is no order. Two laboratories may give one number to different orders, so compare
    /// the laboratories (field 5 of the header) first.
    ///
    /// ```
    /// use sargaceu::{Buffers, Form, Kind, Row};
    /// let (mut one, mut two) = (Buffers::new(Form::Small), Buffers::new(Form::Small));
    /// let asked = one.read(b"H|~^\\&|||LAB||ORM\rP|1\rOBR|1||A~17\rL|1\r")?;
    /// let done = two.read(b"H|~^\\&|||LAB||ORU\rP|1\rC|1\rOBR|1||B~17\rOBX|1\rL|1\r")?;
    /// assert!(asked.same_order(Row::new(3).unwrap(), &done, Row::new(4).unwrap()));
    /// assert!(!asked.same_order(Row::new(3).unwrap(), &done, Row::new(3).unwrap()));
    ///
    /// let unnumbered = two.read(b"H|~^\\&|||LAB||ORM\rP|1\rOBR|1||A~\rL|1\r")?;
    /// assert!(!unnumbered.same_order(Row::new(3).unwrap(), &unnumbered, Row::new(3).unwrap()));
    /// # Ok::<(), sargaceu::Refusal>(())
    /// ```
    pub fn same_order(&self, row: Row, other: &Table<'_>, other_row: Row) -> bool {
        let card = self.card().numbers();
        let (segments, leaves, text) = (self.segment_rows(), self.leaf_rows(), self.text());
        let other_card = other.card().numbers();
        let (other_segments, other_leaves) = (other.segment_rows(), other.leaf_rows());
        let other_text = other.text();
        // SAFETY: each pointer and its count are those of a slice that lives on during the call, and nothing is written.
        unsafe {
            ffi::sargaceu_same_order(
                card.as_ptr(),
                card.len(),
                segments.as_ptr(),
                segments.len(),
                leaves.as_ptr(),
                leaves.len(),
                text.as_ptr(),
                text.len(),
                row.into(),
                other_card.as_ptr(),
                other_card.len(),
                other_segments.as_ptr(),
                other_segments.len(),
                other_leaves.as_ptr(),
                other_leaves.len(),
                other_text.as_ptr(),
                other_text.len(),
                other_row.into(),
            )
        }
    }
}
