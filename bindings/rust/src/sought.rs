//! What a lookup of a leaf answers.

use crate::leaf::Leaf;

/// What [`Table::leaf`](crate::Table::leaf) answers. A leaf that was sent empty is not one that was never sent, and a screen shows them
/// differently: a blank for the one, a dash for the other.
///
/// ```
/// use sargaceu::{Buffers, Form, Kind, Row, Sought};
/// # let mut buffers = Buffers::new(Form::Small);
/// let message = b"H|~^\\&|||LAB||ORU\rP|1\rOBR|1\rOBX|1|NM|GLY||1.2|g/L\rOBX|2|NM|PH||7.4|\rOBX|3|NM|K||5.6\rL|1\r";
/// let table = buffers.read(message)?;
/// let order = Row::new(3).unwrap();
/// let units = table.children(order, Kind::OBX).map(|result| match table.leaf(result.field(7)) {
///     Sought::Found(unit) => unit.to_string(),
///     Sought::Empty => "".into(),
///     Sought::NotThere => "-".into(),
/// });
/// assert!(units.eq(["g/L", "", "-"]));
/// # Ok::<(), sargaceu::Refusal>(())
/// ```
#[derive(Clone, Copy, Debug, PartialEq, Eq, Hash)]
#[must_use]
pub enum Sought<'a> {
    /// The leaf is there and has a text, of one byte or more.
    Found(Leaf<'a>),
    /// The leaf is there and has no text: it was sent empty.
    Empty,
    /// The leaf is not there: it was never sent.
    NotThere,
}

/// The numbers of the library's answer.
impl Sought<'_> {
    const FOUND: u8 = 1;
    const FOUND_EMPTY: u8 = 2;
    const NOT_THERE: u8 = 0;
}

impl<'a> Sought<'a> {
    /// The text, empty where the leaf was sent so; none where it was never sent.
    ///
    /// ```
    /// # use sargaceu::{Buffers, Form, Row};
    /// # let mut buffers = Buffers::new(Form::Small);
    /// let table = buffers.read(b"H|~^\\&|||LAB||ERR\rERR|1\rL|1\r")?;
    /// assert_eq!(table.leaf(Row::FIRST.field(5)).text(), Some(&b"LAB"[..]));
    /// assert_eq!(table.leaf(Row::FIRST.field(4)).text(), Some(&b""[..]));
    /// assert_eq!(table.leaf(Row::FIRST.field(8)).text(), None);
    /// # Ok::<(), sargaceu::Refusal>(())
    /// ```
    pub fn text(self) -> Option<&'a [u8]> {
        match self {
            Sought::Found(leaf) => Some(leaf.bytes()),
            Sought::Empty => Some(&[]),
            Sought::NotThere => None,
        }
    }

    /// The text, empty where the leaf was sent so; the substitute where it was never sent.
    ///
    /// ```
    /// # use sargaceu::{Buffers, Form, Row};
    /// # let mut buffers = Buffers::new(Form::Small);
    /// let table = buffers.read(b"H|~^\\&|||LAB||ERR\rERR|1\rL|1\r")?;
    /// assert_eq!(table.leaf(Row::FIRST.field(5)).text_or(b"-"), b"LAB");
    /// assert_eq!(table.leaf(Row::FIRST.field(4)).text_or(b"-"), b"");
    /// assert_eq!(table.leaf(Row::FIRST.field(8)).text_or(b"-"), b"-");
    /// # Ok::<(), sargaceu::Refusal>(())
    /// ```
    pub fn text_or(self, substitute: &'a [u8]) -> &'a [u8] {
        self.text().unwrap_or(substitute)
    }

    /// The leaf where it has a text; none where it was sent empty or never sent, for fields in which both mean the same. A result's state
    /// (10.12) is one of them: empty or left out it means F.
    ///
    /// ```
    /// # use sargaceu::{Buffers, Form, Row};
    /// # let mut buffers = Buffers::new(Form::Small);
    /// let message = b"H|~^\\&|||LAB||ORU\rP|1\rOBR|1\rOBX|1|NM|GLY||1.2||||||C\rOBX|2|NM|PH||7.4||||||\rOBX|3|NM|K||5.6\rL|1\r";
    /// let table = buffers.read(message)?;
    /// let state = |row| match table.leaf(Row::new(row).unwrap().field(12)).found() {
    ///     Some(leaf) => leaf.to_string(),
    ///     None => "F".into(),
    /// };
    /// assert_eq!([state(4), state(5), state(6)], ["C", "F", "F"]);
    /// # Ok::<(), sargaceu::Refusal>(())
    /// ```
    pub fn found(self) -> Option<Leaf<'a>> {
        match self {
            Sought::Found(leaf) => Some(leaf),
            Sought::Empty | Sought::NotThere => None,
        }
    }

    /// What the library's number says of a leaf that its start and length make; nothing where it would say what the library never does.
    pub(crate) fn of(number: u8, leaf: Option<Leaf<'a>>) -> Option<Sought<'a>> {
        match number {
            Self::FOUND => leaf.map(Sought::Found),
            Self::FOUND_EMPTY => Some(Sought::Empty),
            Self::NOT_THERE => Some(Sought::NotThere),
            _ => None,
        }
    }
}
