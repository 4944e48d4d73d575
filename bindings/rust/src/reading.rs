//! Reading a message into a table.

use crate::answer;
use crate::card::Card;
use crate::ffi;
use crate::form::Form;
use crate::number::Refusal;
use crate::row::Entry;
use crate::table::Table;
use std::fmt;

/// Reads a message of any length by the limits of a form, into lent buffers of at least [`Form::text`] bytes and [`Form::segments`] and
/// [`Form::leaves`] numbers, and allocates nothing. A refusal changes none of them; neither does a table change what lies past its counted
/// entries.
///
/// ```
/// use sargaceu::{read, size::small, Form};
/// let (mut text, mut segments, mut leaves) = ([0; small::TEXT], [0; small::SEGMENTS], [0; small::LEAVES]);
/// let message = b"H|~^\\&|||LAB||ERR\rERR|1\rL|1\r";
/// let table = read(Form::Small, message, &mut text, &mut segments, &mut leaves)?;
/// assert_eq!(table.card().segments, 3);
/// # Ok::<(), sargaceu::Refusal>(())
/// ```
pub fn read<'a>(
    form: Form,
    message: &[u8],
    text: &'a mut [u8],
    segments: &'a mut [Entry],
    leaves: &'a mut [Entry],
) -> Result<Table<'a>, Refusal> {
    let mut answer = [0; answer::READ_ANSWER];
    // SAFETY: each pointer and its count are those of a slice that lives on during the call. The four that are written are borrowed as
    // `&mut`, so they overlap nothing.
    let number = unsafe {
        ffi::sargaceu_read(
            form.into(),
            message.as_ptr(),
            message.len(),
            text.as_mut_ptr(),
            text.len(),
            segments.as_mut_ptr(),
            segments.len(),
            leaves.as_mut_ptr(),
            leaves.len(),
            answer.as_mut_ptr(),
            answer.len(),
        )
    };
    let [place, card @ ..] = answer;
    Refusal::told(number, place)?;
    let card = Card::of(card).expect("the card of an accepted message names its context");
    Ok(Table::counted(form, card, segments, leaves, text))
}

/// Buffers of a form's sizes, to read one message after another into.
///
/// ```
/// let mut buffers = sargaceu::Buffers::new(sargaceu::Form::Small);
/// let table = buffers.read(b"H|~^\\&|||LAB||ADM\rP|1\rL|1\r")?;
/// assert_eq!(table.card().context, sargaceu::Context::ADM);
/// # Ok::<(), sargaceu::Refusal>(())
/// ```
#[derive(Clone)]
pub struct Buffers {
    form: Form,
    pub(crate) text: Box<[u8]>,
    pub(crate) segments: Box<[Entry]>,
    pub(crate) leaves: Box<[Entry]>,
}

impl Buffers {
    /// Buffers of a form that hold nothing yet.
    pub fn new(form: Form) -> Buffers {
        Buffers {
            form,
            text: vec![0; form.text()].into(),
            segments: vec![0; form.segments()].into(),
            leaves: vec![0; form.leaves()].into(),
        }
    }

    /// The form whose messages are read into them.
    pub fn form(&self) -> Form {
        self.form
    }

    /// The table of a message of any length, which stands in the buffers until the next one is read. The message is judged by the limits of the
    /// buffers' form.
    pub fn read(&mut self, message: &[u8]) -> Result<Table<'_>, Refusal> {
        read(
            self.form,
            message,
            &mut self.text,
            &mut self.segments,
            &mut self.leaves,
        )
    }
}

impl fmt::Debug for Buffers {
    fn fmt(&self, f: &mut fmt::Formatter<'_>) -> fmt::Result {
        f.debug_struct("Buffers")
            .field("form", &self.form)
            .finish_non_exhaustive()
    }
}
