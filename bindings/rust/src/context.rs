//! The contexts of messages.

use crate::unknown::Unknown;
use std::fmt;
use std::str::FromStr;

/// The context of a message, which field 7 of its header names: it says which kinds may follow which.
///
/// It is shown and parsed by its name, and made from its number:
///
/// ```
/// use sargaceu::Context;
/// assert_eq!(Context::ORU.to_string(), "ORU");
/// assert_eq!("ORU".parse(), Ok(Context::ORU));
/// assert_eq!(Context::try_from(6_u8), Ok(Context::ORU));
/// assert!(Context::try_from(0_u8).is_err());
/// ```
#[derive(Clone, Copy, Debug, PartialEq, Eq, PartialOrd, Ord, Hash)]
#[repr(u8)]
pub enum Context {
    /// Admissions.
    ADM = 1,
    /// Orders.
    ORM = 2,
    /// Orders with covers.
    ORA = 3,
    /// Payments.
    REG = 4,
    /// Errors.
    ERR = 5,
    /// Results.
    ORU = 6,
    /// Invoices.
    FAC = 7,
}

impl Context {
    /// All contexts, in the order of their numbers.
    pub const ALL: [Context; 7] = [
        Context::ADM,
        Context::ORM,
        Context::ORA,
        Context::REG,
        Context::ERR,
        Context::ORU,
        Context::FAC,
    ];

    /// The name that stands in field 7 of the header.
    pub fn name(self) -> &'static str {
        match self {
            Context::ADM => "ADM",
            Context::ORM => "ORM",
            Context::ORA => "ORA",
            Context::REG => "REG",
            Context::ERR => "ERR",
            Context::ORU => "ORU",
            Context::FAC => "FAC",
        }
    }
}

const UNKNOWN: Unknown = Unknown { what: "context" };

impl fmt::Display for Context {
    fn fmt(&self, f: &mut fmt::Formatter<'_>) -> fmt::Result {
        f.pad(self.name())
    }
}

impl FromStr for Context {
    type Err = Unknown;

    fn from_str(name: &str) -> Result<Context, Unknown> {
        let named = Context::ALL.iter().find(|context| context.name() == name);
        named.copied().ok_or(UNKNOWN)
    }
}

impl TryFrom<u8> for Context {
    type Error = Unknown;

    fn try_from(number: u8) -> Result<Context, Unknown> {
        let numbered = Context::ALL
            .iter()
            .find(|&&context| context as u8 == number);
        numbered.copied().ok_or(UNKNOWN)
    }
}

impl TryFrom<u16> for Context {
    type Error = Unknown;

    fn try_from(number: u16) -> Result<Context, Unknown> {
        u8::try_from(number).map_err(|_| UNKNOWN)?.try_into()
    }
}

impl TryFrom<u32> for Context {
    type Error = Unknown;

    fn try_from(number: u32) -> Result<Context, Unknown> {
        u8::try_from(number).map_err(|_| UNKNOWN)?.try_into()
    }
}

impl From<Context> for u8 {
    fn from(context: Context) -> u8 {
        context as u8
    }
}
