//! Reading a message with an index.

use crate::answer;
use crate::card::Card;
use crate::ffi;
use crate::form::Form;
use crate::index::{Index, Tally};
use crate::number::Refusal;
use crate::reading::Buffers;
use crate::row::Entry;
use crate::table::Table;

/// Reads a message as [`read`](crate::read) does, adds the codes of its results to the index and the message to the tally, and allocates nothing.
/// An OBX whose code is absent or empty is not counted, and a message that is read twice is counted twice. [`Buffers::read_indexed`] does the same.
///
/// Behind what [`read`](crate::read) refuses come [`Number::LongCode`](crate::Number::LongCode), [`Number::FullIndex`](crate::Number::FullIndex) and
/// [`Number::FullCount`](crate::Number::FullCount). A refusal changes nothing: no buffer, not the index, not the tally.
///
/// The call takes some 52 KB of stack, among it a copy of the index.
pub fn read_indexed<'a>(
    form: Form,
    message: &[u8],
    text: &'a mut [u8],
    segments: &'a mut [Entry],
    leaves: &'a mut [Entry],
    index: &mut Index,
    tally: &mut Tally,
) -> Result<Table<'a>, Refusal> {
    let mut answer = [0; answer::READ_ANSWER];
    let mut numbers = tally.numbers();
    // SAFETY: each pointer and its count are those of a slice that lives on during the call. The seven that are written are borrowed as
    // `&mut`, so they overlap nothing.
    let number = unsafe {
        ffi::sargaceu_read_indexed(
            form.into(),
            message.as_ptr(),
            message.len(),
            text.as_mut_ptr(),
            text.len(),
            segments.as_mut_ptr(),
            segments.len(),
            leaves.as_mut_ptr(),
            leaves.len(),
            index.codes.as_mut_ptr(),
            index.codes.len(),
            index.counts.as_mut_ptr(),
            index.counts.len(),
            numbers.as_mut_ptr(),
            numbers.len(),
            answer.as_mut_ptr(),
            answer.len(),
        )
    };
    let [place, card @ ..] = answer;
    Refusal::told(number, place)?;
    *tally = Tally::of(numbers);
    let card = Card::of(card).expect("the card of an accepted message names its context");
    Ok(Table::counted(form, card, segments, leaves, text))
}

impl Buffers {
    /// The table of a message, whose codes are counted in an index, and the message in a tally. [`read_indexed`] says what is refused.
    ///
    /// ```
    /// use sargaceu::{Buffers, Form, Index, Tally};
    /// let (mut buffers, mut index, mut tally) = (Buffers::new(Form::Small), Index::new(), Tally::default());
    /// let message = b"H|~^\\&|||LAB||ORU\rP|1\rOBR|1\rOBX|1|NM|GLY||1.2\rL|1\r";
    /// let table = buffers.read_indexed(message, &mut index, &mut tally)?;
    /// assert_eq!(table.card().segments, 5);
    /// assert_eq!(index.count(b"GLY"), Some(1));
    ///
    /// // a message that is refused counts nothing, so it can be mended and read again
    /// buffers.read_indexed(&message[..20], &mut index, &mut tally).unwrap_err();
    /// assert_eq!(tally.messages, 1);
    /// # Ok::<(), sargaceu::Refusal>(())
    /// ```
    pub fn read_indexed(
        &mut self,
        message: &[u8],
        index: &mut Index,
        tally: &mut Tally,
    ) -> Result<Table<'_>, Refusal> {
        read_indexed(
            self.form(),
            message,
            &mut self.text,
            &mut self.segments,
            &mut self.leaves,
            index,
            tally,
        )
    }
}
