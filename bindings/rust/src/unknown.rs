//! The error of a name or a number that stands for nothing.

use std::error::Error;
use std::fmt;

/// A name or a number that is none of those asked for.
///
/// ```
/// let unknown = "XYZ".parse::<sargaceu::Kind>().unwrap_err();
/// assert_eq!(unknown.to_string(), "no kind has this name or number");
/// ```
#[derive(Clone, Copy, Debug, PartialEq, Eq, Hash)]
pub struct Unknown {
    pub(crate) what: &'static str,
}

impl fmt::Display for Unknown {
    fn fmt(&self, f: &mut fmt::Formatter<'_>) -> fmt::Result {
        write!(f, "no {} has this name or number", self.what)
    }
}

impl Error for Unknown {}
