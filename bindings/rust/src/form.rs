//! The two forms of a message.

use crate::size::{large, small};

/// The form of a message. The two differ in how much a message may have and a buffer must hold, and in nothing else: what the small form
/// accepts the large one accepts as well, with the same table.
///
/// There is no default. The buffers of the small form take 76 KB and refuse a document of a megabyte; those of the large one take 2.8 MB.
///
/// ```
/// use sargaceu::{Buffers, Form, Number};
/// let mut message = b"H|~^\\&|||LAB||ERR\r".to_vec();
/// message.extend(b"ERR|1\r".repeat(1000));
/// message.extend(b"L|1\r");
/// assert_eq!(Buffers::new(Form::Small).read(&message).unwrap_err().number, Number::ManySegments);
/// assert_eq!(Buffers::new(Form::Large).read(&message)?.card().segments, 1002);
/// # Ok::<(), sargaceu::Refusal>(())
/// ```
#[derive(Clone, Copy, Debug, PartialEq, Eq, PartialOrd, Ord, Hash)]
#[repr(u8)]
pub enum Form {
    /// Up to 16,384 bytes, 256 segments and 2,048 leaves: for hosts with little memory.
    Small = 0,
    /// Up to 1,048,576 bytes, 4,096 segments and 65,536 leaves: for reports of a megabyte.
    Large = 1,
}

impl Form {
    /// Both forms, in the order of their numbers.
    pub const ALL: [Form; 2] = [Form::Small, Form::Large];

    /// The most bytes that an accepted message has.
    pub const fn message(self) -> usize {
        match self {
            Form::Small => small::MESSAGE,
            Form::Large => large::MESSAGE,
        }
    }

    /// The least bytes of a text area.
    pub const fn text(self) -> usize {
        match self {
            Form::Small => small::TEXT,
            Form::Large => large::TEXT,
        }
    }

    /// The least numbers of segment rows.
    pub const fn segments(self) -> usize {
        match self {
            Form::Small => small::SEGMENTS,
            Form::Large => large::SEGMENTS,
        }
    }

    /// The least numbers of leaf rows.
    pub const fn leaves(self) -> usize {
        match self {
            Form::Small => small::LEAVES,
            Form::Large => large::LEAVES,
        }
    }

    /// The least bytes of an output.
    ///
    /// ```
    /// use sargaceu::{size, Form};
    /// let output = [0_u8; Form::Small.output()];
    /// assert_eq!(output.len(), size::small::OUTPUT);
    /// ```
    pub const fn output(self) -> usize {
        match self {
            Form::Small => small::OUTPUT,
            Form::Large => large::OUTPUT,
        }
    }

    /// The most numeric results that an order may have.
    pub const fn values(self) -> usize {
        match self {
            Form::Small => small::VALUES,
            Form::Large => large::VALUES,
        }
    }
}

impl From<Form> for u8 {
    fn from(form: Form) -> u8 {
        form as u8
    }
}
