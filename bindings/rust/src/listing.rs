//! The listing of a message.

use crate::ffi;
use crate::reading::Buffers;
use crate::size;
use crate::text::latin1;

impl Buffers {
    /// The listing of a message of any length, as the program `list` prints it: counts, then a line `seg` for each row. A refused message
    /// has the three lines `form`, `answer` and `place`. The message is read in the small form, of whichever form the buffers are.
    ///
    /// ```
    /// let mut buffers = sargaceu::Buffers::new(sargaceu::Form::Small);
    /// let listing = buffers.list(b"H|~^\\&|||LAB||ERR\rERR|1\rL|1\r");
    /// assert!(listing.ends_with("seg=1,H,0,1,7\nseg=2,ERR,1,8,2\nseg=3,L,0,10,2\n"));
    /// assert_eq!(buffers.list(b""), "form=1\nanswer=3\nplace=0\n");
    /// ```
    pub fn list(&mut self, message: &[u8]) -> String {
        let mut listing = vec![0; size::LISTING];
        // SAFETY: each pointer and its count are those of a slice that lives on during the call. The four that are written are borrowed
        // as `&mut`, so they overlap nothing.
        let bytes = unsafe {
            ffi::sargaceu_list(
                message.as_ptr(),
                message.len(),
                self.text.as_mut_ptr(),
                self.text.len(),
                self.segments.as_mut_ptr(),
                self.segments.len(),
                self.leaves.as_mut_ptr(),
                self.leaves.len(),
                listing.as_mut_ptr(),
                listing.len(),
            )
        };
        listing.truncate(bytes);
        latin1(&listing)
    }
}
