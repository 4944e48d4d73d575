//! Whether a report meets the rules for screening.

use crate::answer;
use crate::ffi;
use crate::number::Refusal;
use crate::table::Table;

impl Table<'_> {
    /// Whether the table is a report that meets the rules for screening: the fields that must be there, the four pseudo-analyses of each
    /// patient, and the values that a result may have. Each rule has its number, from [`Number::NotAReport`](crate::Number::NotAReport) to
    /// [`Number::WrongResult`](crate::Number::WrongResult). What comes back is the lowest one whose rule does not hold, with the first row of
    /// which it does not: a lower number comes before a higher one that fails in an earlier row. Nothing else is judged.
    ///
    /// ```
    /// use sargaceu::{Buffers, Form, Kind, Number, Row};
    /// # let mut buffers = Buffers::new(Form::Small);
    /// let message = b"H|~^\\&|||990000017||ORU\rP|1||||MARTIN~ANNE|LEROY||||~~~~99120||0639980114\rOBR|1||T8841~L8841||||202211300905\r\
    ///     OBX|1|CE|94500-6~SARS-CoV-2~LN||N\rOBX|2|CE|PAYS||FR\rOBX|3|CE|TYPOR||I\rOBX|4|CE|PROSS||N\rOBX|5|ST|FINGE||990000025\rL|1\r";
    /// assert_eq!(buffers.read(message)?.screen(), Ok(()));
    ///
    /// let message = String::from_utf8_lossy(message).replace("TYPOR||I", "TYPOR||X");
    /// let table = buffers.read(message.as_bytes())?;
    /// let refusal = table.screen().unwrap_err();
    /// assert_eq!(refusal.number, Number::WrongTypor);
    /// assert_eq!(refusal.to_string(), "a TYPOR has none of the values I, H, E, C, A, U, at row 6 (refusal 43)");
    ///
    /// // what stands in that row
    /// let row = Row::new(refusal.place).unwrap();
    /// assert_eq!(table.row(row).unwrap().kind(), Kind::OBX);
    /// assert_eq!(table.leaf(row.field(6)).text(), Some(&b"X"[..]));
    /// # Ok::<(), sargaceu::Refusal>(())
    /// ```
    pub fn screen(&self) -> Result<(), Refusal> {
        let card = self.card().numbers();
        let (segments, leaves, text) = (self.segment_rows(), self.leaf_rows(), self.text());
        let mut answer = [0; answer::SCREEN_ANSWER];
        // SAFETY: each pointer and its count are those of a slice that lives on during the call. The answer, which is written, is borrowed
        // as `&mut`, so it overlaps nothing.
        let number = unsafe {
            ffi::sargaceu_screen(
                self.form().into(),
                card.as_ptr(),
                card.len(),
                segments.as_ptr(),
                segments.len(),
                leaves.as_ptr(),
                leaves.len(),
                text.as_ptr(),
                text.len(),
                answer.as_mut_ptr(),
                answer.len(),
            )
        };
        let [place] = answer;
        Refusal::told(number, place)
    }
}
