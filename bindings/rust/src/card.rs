//! The card of a table.

use crate::context::Context;
use crate::size;

/// What a table's rows and text are counted by.
#[derive(Clone, Copy, Debug, PartialEq, Eq, Hash)]
pub struct Card {
    /// The field separator.
    pub separator: u8,
    /// The message's context.
    pub context: Context,
    /// How many segment rows there are.
    pub segments: usize,
    /// How many leaf rows there are.
    pub leaves: usize,
    /// How many bytes of text there are.
    pub text: usize,
}

impl Card {
    /// The card as the library takes it.
    pub(crate) fn numbers(&self) -> [usize; size::CARD] {
        [
            self.separator.into(),
            self.context as usize,
            self.segments,
            self.leaves,
            self.text,
        ]
    }

    /// The card that the library's numbers are, where they are one of an accepted message.
    pub(crate) fn of(numbers: [usize; size::CARD]) -> Option<Card> {
        let [separator, context, segments, leaves, text] = numbers;
        Some(Card {
            separator: u8::try_from(separator).ok()?,
            context: Context::try_from(u8::try_from(context).ok()?).ok()?,
            segments,
            leaves,
            text,
        })
    }
}
