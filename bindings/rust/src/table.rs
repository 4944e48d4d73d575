//! The table that a message is filed in.

use crate::card::Card;
use crate::ffi;
use crate::form::Form;
use crate::number::{Number, Refusal};
use crate::row::Entry;
use crate::size;
use std::fmt;

/// The table of a message: a card, segment rows, leaf rows and text.
///
/// It is always one that some message of its form reads to: it comes from reading ([`Buffers::read`](crate::Buffers::read),
/// [`read`](crate::read)) or from widening an archived one ([`Buffers::widen`](crate::Buffers::widen)), or [`Table::new`] has looked at it. Two
/// tables are equal where their cards are, and their counted rows and texts, whatever their forms.
#[derive(Clone, Copy)]
pub struct Table<'a> {
    form: Form,
    card: Card,
    segments: &'a [Entry],
    leaves: &'a [Entry],
    text: &'a [u8],
}

impl<'a> Table<'a> {
    /// The table of a form that a card, segment rows, leaf rows and text are, wherever they were kept. Entries past those that the card counts
    /// are not looked at. Refused with [`Number::NoTable`] where no message of the form reads to it.
    ///
    /// ```
    /// # let message = b"H|~^\\&|||LAB||ORU\rP|1\rOBR|1\rOBX|1|NM|GLY||1.2\rL|1\r";
    /// use sargaceu::{Buffers, Card, Form, Number, Table};
    /// let mut buffers = Buffers::new(Form::Small);
    /// let table = buffers.read(message)?;
    /// let kept = (table.segment_rows().to_vec(), table.leaf_rows().to_vec(), table.text().to_vec());
    /// assert_eq!(Table::new(Form::Small, table.card(), &kept.0, &kept.1, &kept.2), Ok(table));
    ///
    /// let shorter = Card { text: table.card().text - 1, ..table.card() };
    /// let refusal = Table::new(Form::Small, shorter, &kept.0, &kept.1, &kept.2).unwrap_err();
    /// assert_eq!(refusal.number, Number::NoTable);
    /// # Ok::<(), sargaceu::Refusal>(())
    /// ```
    pub fn new(
        form: Form,
        card: Card,
        segments: &'a [Entry],
        leaves: &'a [Entry],
        text: &'a [u8],
    ) -> Result<Table<'a>, Refusal> {
        if is_table(form, card, segments, leaves, text) {
            Ok(Table::counted(form, card, segments, leaves, text))
        } else {
            Err(Refusal {
                number: Number::NoTable,
                place: 0,
            })
        }
    }

    /// The table at the front of buffers that hold one: no count of its card goes past its buffer.
    pub(crate) fn counted(
        form: Form,
        card: Card,
        segments: &'a [Entry],
        leaves: &'a [Entry],
        text: &'a [u8],
    ) -> Table<'a> {
        Table {
            form,
            card,
            segments: &segments[..card.segments * size::SEGMENT_ROW],
            leaves: &leaves[..card.leaves * size::LEAF_ROW],
            text: &text[..card.text],
        }
    }

    /// The form by whose limits it is judged where it is written, screened or asked for the values of an order.
    pub fn form(&self) -> Form {
        self.form
    }

    /// The card.
    pub fn card(&self) -> Card {
        self.card
    }

    /// The numbers of all segment rows, [`SEGMENT_ROW`](size::SEGMENT_ROW) a row.
    pub fn segment_rows(&self) -> &'a [Entry] {
        self.segments
    }

    /// The numbers of all leaf rows, [`LEAF_ROW`](size::LEAF_ROW) a row.
    pub fn leaf_rows(&self) -> &'a [Entry] {
        self.leaves
    }

    /// The text of all leaves, one right behind the other.
    pub fn text(&self) -> &'a [u8] {
        self.text
    }
}

impl PartialEq for Table<'_> {
    fn eq(&self, other: &Self) -> bool {
        (self.card, self.segments, self.leaves, self.text)
            == (other.card, other.segments, other.leaves, other.text)
    }
}

impl Eq for Table<'_> {}

impl fmt::Debug for Table<'_> {
    fn fmt(&self, f: &mut fmt::Formatter<'_>) -> fmt::Result {
        f.debug_struct("Table")
            .field("form", &self.form)
            .field("card", &self.card)
            .finish_non_exhaustive()
    }
}

/// Whether some message of a form reads to this.
fn is_table(form: Form, card: Card, segments: &[Entry], leaves: &[Entry], text: &[u8]) -> bool {
    let card = card.numbers();
    // SAFETY: each pointer and its count are those of a slice that lives on during the call, and nothing is written.
    unsafe {
        ffi::sargaceu_is_table(
            form.into(),
            card.as_ptr(),
            card.len(),
            segments.as_ptr(),
            segments.len(),
            leaves.as_ptr(),
            leaves.len(),
            text.as_ptr(),
            text.len(),
        )
    }
}
