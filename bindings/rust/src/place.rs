//! The places of leaves.

use crate::row::{Entry, Row};

/// The place of a leaf: a segment's row and four numbers that count from 1. [`Row::field`] makes one, and the methods here change the
/// numbers that are not 1.
///
/// ```
/// # let patient = sargaceu::Row::FIRST;
/// let first_name = patient.field(6).subfield(2);
/// let second_phone = patient.field(13).repetition(2);
/// # assert_eq!((first_name.subfield, second_phone.repetition), (2, 2));
/// ```
#[derive(Clone, Copy, Debug, PartialEq, Eq, PartialOrd, Ord, Hash)]
pub struct Place {
    /// The row of the segment.
    pub segment: Row,
    /// The field in the segment.
    pub field: Entry,
    /// The repetition in the field.
    pub repetition: Entry,
    /// The subfield in the repetition.
    pub subfield: Entry,
    /// The sub-subfield in the subfield.
    pub subsubfield: Entry,
}

impl Place {
    /// This place with another repetition.
    #[must_use]
    pub fn repetition(self, repetition: Entry) -> Place {
        Place { repetition, ..self }
    }

    /// This place with another subfield.
    #[must_use]
    pub fn subfield(self, subfield: Entry) -> Place {
        Place { subfield, ..self }
    }

    /// This place with another sub-subfield.
    #[must_use]
    pub fn subsubfield(self, subsubfield: Entry) -> Place {
        Place {
            subsubfield,
            ..self
        }
    }
}
