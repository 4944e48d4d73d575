//! The text of leaves and lines, which is ISO 8859-1.

/// The string of bytes in ISO 8859-1: every byte is the character of its number.
///
/// ```
/// assert_eq!(sargaceu::latin1(b"Glyc\xe9mie"), "Glycémie");
/// ```
pub fn latin1(bytes: &[u8]) -> String {
    bytes.iter().copied().map(char::from).collect()
}
