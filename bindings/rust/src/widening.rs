//! Widening an archived table, whose rows hold numbers of 16 bits.

use crate::answer;
use crate::card::Card;
use crate::ffi;
use crate::form::Form;
use crate::number::Refusal;
use crate::reading::Buffers;
use crate::row::Entry;
use crate::table::Table;

/// Widens an archived table into lent buffers of at least the sizes in [`size::small`](crate::size::small), and allocates nothing. What comes
/// back is exactly the table that reading the archived table's message gives now, with the owners in force, whichever were in force when it was
/// read; it is of the small form. [`Buffers::widen`] does the same.
///
/// Refused with [`Number::ShortBuffer`](crate::Number::ShortBuffer) where a new buffer is short, and else with
/// [`Number::NeverRead`](crate::Number::NeverRead) where no reader gave the table, be it by the owners in force or by the former ones. A refusal
/// changes none of the new buffers.
///
/// The library copies the archived rows into some 61 KB of stack.
pub fn widen<'a>(
    card: Card,
    segments: &[u16],
    leaves: &[u16],
    text: &[u8],
    new_text: &'a mut [u8],
    new_segments: &'a mut [Entry],
    new_leaves: &'a mut [Entry],
) -> Result<Table<'a>, Refusal> {
    let card = card.numbers();
    let mut answer = [0; answer::READ_ANSWER];
    // SAFETY: each pointer and its count are those of a slice that lives on during the call. The four that are written are borrowed as
    // `&mut`, so they overlap nothing.
    let number = unsafe {
        ffi::sargaceu_widen(
            card.as_ptr(),
            card.len(),
            segments.as_ptr(),
            segments.len(),
            leaves.as_ptr(),
            leaves.len(),
            text.as_ptr(),
            text.len(),
            new_text.as_mut_ptr(),
            new_text.len(),
            new_segments.as_mut_ptr(),
            new_segments.len(),
            new_leaves.as_mut_ptr(),
            new_leaves.len(),
            answer.as_mut_ptr(),
            answer.len(),
        )
    };
    let [place, card @ ..] = answer;
    Refusal::told(number, place)?;
    let card = Card::of(card).expect("the card of a widened table names its context");
    Ok(Table::counted(
        Form::Small,
        card,
        new_segments,
        new_leaves,
        new_text,
    ))
}

impl Buffers {
    /// Widens an archived table, whose rows hold numbers of 16 bits, into these buffers, of whichever form they are: exactly the table that
    /// reading its message gives now. It is of the small form. [`widen`] says what is refused.
    ///
    /// ```
    /// use sargaceu::{Buffers, Card, Context, Form, Row};
    /// let mut buffers = Buffers::new(Form::Small);
    /// // read when an order of ORA belonged to the last cover before it, here the AP in row 3
    /// let card = Card { separator: b'|', context: Context::ORA, segments: 5, leaves: 15, text: 22 };
    /// let segments = [1, 0, 1, 7, 2, 1, 8, 2, 3, 2, 10, 2, 5, 3, 12, 2, 11, 0, 14, 2];
    /// # let table = buffers.read(b"H|~^\\&|||LAB||ORA\rP|1\rAP|1\rOBR|1\rL|1\r")?;
    /// # let (leaves, text) = (table.leaf_rows().iter().map(|&number| number as u16).collect::<Vec<u16>>(), table.text().to_vec());
    /// let table = buffers.widen(card, &segments, &leaves, &text)?;
    /// let order = table.row(Row::new(4).unwrap()).unwrap();
    /// assert_eq!(order.owner(), Row::new(2));
    /// assert_eq!(table.to_message(), b"H|~^\\&|||LAB||ORA\rP|1\rAP|1\rOBR|1\rL|1\r");
    /// # Ok::<(), sargaceu::Refusal>(())
    /// ```
    pub fn widen(
        &mut self,
        card: Card,
        segments: &[u16],
        leaves: &[u16],
        text: &[u8],
    ) -> Result<Table<'_>, Refusal> {
        widen(
            card,
            segments,
            leaves,
            text,
            &mut self.text,
            &mut self.segments,
            &mut self.leaves,
        )
    }
}
