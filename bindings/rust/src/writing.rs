//! Writing a table back as a message.

use crate::answer;
use crate::ffi;
use crate::number::Refusal;
use crate::table::Table;

/// How much of an output a message takes.
#[derive(Clone, Copy, Debug, PartialEq, Eq, Hash)]
pub struct Written {
    /// The bytes at the output's front that are the message.
    pub bytes: usize,
    /// The message's lines.
    pub lines: usize,
}

impl Table<'_> {
    /// Writes the table's message at the front of an output of at least as many bytes as its form asks for
    /// ([`Form::output`](crate::Form::output)), and allocates nothing. A shorter output is refused with
    /// [`Number::ShortOutput`](crate::Number::ShortOutput) and not touched. The message reads to the same table, and segments of over 219
    /// bytes are cut into A lines.
    ///
    /// ```
    /// # let mut buffers = sargaceu::Buffers::new(sargaceu::Form::Small);
    /// # let table = buffers.read(b"H|~^\\&|||LAB||ADM\rP|1\rL|1\r")?;
    /// let mut output = vec![0; table.form().output()];
    /// let written = table.write(&mut output)?;
    /// assert_eq!(&output[..written.bytes], b"H|~^\\&|||LAB||ADM\rP|1\rL|1\r");
    /// assert_eq!(written.lines, 3);
    /// # Ok::<(), sargaceu::Refusal>(())
    /// ```
    pub fn write(&self, output: &mut [u8]) -> Result<Written, Refusal> {
        let card = self.card().numbers();
        let (segments, leaves, text) = (self.segment_rows(), self.leaf_rows(), self.text());
        let mut answer = [0; answer::WRITE_ANSWER];
        // SAFETY: each pointer and its count are those of a slice that lives on during the call. The two that are written are borrowed
        // as `&mut`, so they overlap nothing.
        let number = unsafe {
            ffi::sargaceu_write(
                self.form().into(),
                card.as_ptr(),
                card.len(),
                segments.as_ptr(),
                segments.len(),
                leaves.as_ptr(),
                leaves.len(),
                text.as_ptr(),
                text.len(),
                output.as_mut_ptr(),
                output.len(),
                answer.as_mut_ptr(),
                answer.len(),
            )
        };
        let [place, bytes, lines] = answer;
        Refusal::told(number, place)?;
        Ok(Written { bytes, lines })
    }

    /// The table's message, in bytes of its own.
    ///
    /// ```
    /// # let mut buffers = sargaceu::Buffers::new(sargaceu::Form::Small);
    /// let table = buffers.read(b"H|~^\\&|||LAB||ADM\rP|\rA|1\rL|1\r\n")?;
    /// assert_eq!(table.to_message(), b"H|~^\\&|||LAB||ADM\rP|1\rL|1\r");
    /// # Ok::<(), sargaceu::Refusal>(())
    /// ```
    pub fn to_message(&self) -> Vec<u8> {
        let mut output = vec![0; self.form().output()];
        let written = self
            .write(&mut output)
            .expect("the writer takes every table where its output has the stated size");
        output.truncate(written.bytes);
        output
    }
}
