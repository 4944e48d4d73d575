//! The kinds of segments.

use crate::unknown::Unknown;
use std::fmt;
use std::str::FromStr;

/// The kind of a segment, which stands before its first field separator.
///
/// It is shown and parsed by its name, and made from its number:
///
/// ```
/// use sargaceu::Kind;
/// assert_eq!(Kind::OBX.to_string(), "OBX");
/// assert_eq!("OBX".parse(), Ok(Kind::OBX));
/// assert_eq!(Kind::try_from(6_u32), Ok(Kind::OBX));
/// assert!(Kind::try_from(13_u8).is_err());
/// ```
#[derive(Clone, Copy, Debug, PartialEq, Eq, PartialOrd, Ord, Hash)]
#[repr(u8)]
pub enum Kind {
    /// The header, which begins a message.
    H = 1,
    /// A patient.
    P = 2,
    /// The patient's first cover.
    AP = 3,
    /// A cover that adds to the first.
    AC = 4,
    /// An order.
    OBR = 5,
    /// A result.
    OBX = 6,
    /// The head of an invoice.
    FAC = 7,
    /// A payment.
    REG = 8,
    /// A line of an invoice.
    ACT = 9,
    /// An error.
    ERR = 10,
    /// The end of a message.
    L = 11,
    /// A comment.
    C = 12,
}

impl Kind {
    /// All kinds, in the order of their numbers.
    pub const ALL: [Kind; 12] = [
        Kind::H,
        Kind::P,
        Kind::AP,
        Kind::AC,
        Kind::OBR,
        Kind::OBX,
        Kind::FAC,
        Kind::REG,
        Kind::ACT,
        Kind::ERR,
        Kind::L,
        Kind::C,
    ];

    /// The name that a segment of this kind begins with.
    pub fn name(self) -> &'static str {
        match self {
            Kind::H => "H",
            Kind::P => "P",
            Kind::AP => "AP",
            Kind::AC => "AC",
            Kind::OBR => "OBR",
            Kind::OBX => "OBX",
            Kind::FAC => "FAC",
            Kind::REG => "REG",
            Kind::ACT => "ACT",
            Kind::ERR => "ERR",
            Kind::L => "L",
            Kind::C => "C",
        }
    }
}

const UNKNOWN: Unknown = Unknown { what: "kind" };

impl fmt::Display for Kind {
    fn fmt(&self, f: &mut fmt::Formatter<'_>) -> fmt::Result {
        f.pad(self.name())
    }
}

impl FromStr for Kind {
    type Err = Unknown;

    fn from_str(name: &str) -> Result<Kind, Unknown> {
        let named = Kind::ALL.iter().find(|kind| kind.name() == name);
        named.copied().ok_or(UNKNOWN)
    }
}

impl TryFrom<u8> for Kind {
    type Error = Unknown;

    fn try_from(number: u8) -> Result<Kind, Unknown> {
        let numbered = Kind::ALL.iter().find(|&&kind| kind as u8 == number);
        numbered.copied().ok_or(UNKNOWN)
    }
}

impl TryFrom<u16> for Kind {
    type Error = Unknown;

    fn try_from(number: u16) -> Result<Kind, Unknown> {
        u8::try_from(number).map_err(|_| UNKNOWN)?.try_into()
    }
}

impl TryFrom<u32> for Kind {
    type Error = Unknown;

    fn try_from(number: u32) -> Result<Kind, Unknown> {
        u8::try_from(number).map_err(|_| UNKNOWN)?.try_into()
    }
}

impl From<Kind> for u8 {
    fn from(kind: Kind) -> u8 {
        kind as u8
    }
}

impl From<Kind> for u16 {
    fn from(kind: Kind) -> u16 {
        kind as u16
    }
}

impl From<Kind> for u32 {
    fn from(kind: Kind) -> u32 {
        kind as u32
    }
}
