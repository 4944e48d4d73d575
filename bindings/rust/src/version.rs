//! The version of the library.

use crate::ffi;

/// The version of the library that this crate is for. It rises where a function's parameters, a size or the meaning of a number changes.
pub const VERSION: u32 = 3;

/// The version of the library that is linked: [`VERSION`] where crate and archive belong together. A program that links an archive from
/// elsewhere (`SARGACEU_LIB`) asks once, since no linker tells two versions of a function apart.
///
/// ```
/// assert_eq!(sargaceu::version(), sargaceu::VERSION);
/// ```
pub fn version() -> u32 {
    // SAFETY: the function takes nothing and keeps nothing.
    unsafe { ffi::sargaceu_version() }
}
