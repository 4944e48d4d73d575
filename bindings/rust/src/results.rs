//! The numeric results of an order.

use crate::answer;
use crate::ffi;
use crate::number::Refusal;
use crate::row::Row;
use crate::table::Table;
use crate::value::Value;

impl Table<'_> {
    /// The values of the numeric results of an order, in row order: of every OBX that belongs to the order's row and has the type NM (field
    /// 3). Each is the value of its field 6, or the refusal of that text: where the field is not there, or has several leaves, it is
    /// [`Number::NotANumber`](crate::Number::NotANumber). A row that is no OBR of the table is refused with
    /// [`Number::NotAnOrder`](crate::Number::NotAnOrder).
    ///
    /// ```
    /// use sargaceu::{Buffers, Form, Kind, Row};
    /// # let mut buffers = Buffers::new(Form::Small);
    /// let message = b"H|~^\\&|||LAB||ORU\rP|1\rOBR|1\rOBX|1|NM|CRP||48.0\rOBX|2|TX|NT||turbid\rOBX|3|NM|TNI||<.01\rL|1\r";
    /// let table = buffers.read(message)?;
    /// let order = Row::new(3).unwrap();
    /// let values = table.order_values(order)?;
    /// assert_eq!(values[0]?.to_string(), "48.0");
    /// assert_eq!(values[1].unwrap_err().to_string(), "the text says no number (refusal 20)");
    ///
    /// // the row of each is the one that stands where it does among the results of type NM
    /// let numeric = table.children(order, Kind::OBX).filter(|row| table.leaf(row.field(3)).text() == Some(b"NM"));
    /// let rows: Vec<usize> = numeric.zip(values).map(|(row, _)| row.number()).collect();
    /// assert_eq!(rows, [4, 6]);
    /// # Ok::<(), sargaceu::Refusal>(())
    /// ```
    pub fn order_values(&self, order: Row) -> Result<Vec<Result<Value, Refusal>>, Refusal> {
        let card = self.card().numbers();
        let (segments, leaves, text) = (self.segment_rows(), self.leaf_rows(), self.text());
        // every result is a segment, so this is never too little room
        let room = self.card().segments;
        let (mut numbers, mut wholes, mut decimals) = (vec![0; room], vec![0; room], vec![0; room]);
        let mut answer = [0; answer::ORDER_ANSWER];
        // SAFETY: each pointer and its count are those of a slice that lives on during the call. The four that are written are borrowed
        // as `&mut`, so they overlap nothing.
        let number = unsafe {
            ffi::sargaceu_order_values(
                self.form().into(),
                card.as_ptr(),
                card.len(),
                segments.as_ptr(),
                segments.len(),
                leaves.as_ptr(),
                leaves.len(),
                text.as_ptr(),
                text.len(),
                order.into(),
                numbers.as_mut_ptr(),
                numbers.len(),
                wholes.as_mut_ptr(),
                wholes.len(),
                decimals.as_mut_ptr(),
                decimals.len(),
                answer.as_mut_ptr(),
                answer.len(),
            )
        };
        let [place, count] = answer;
        Refusal::told(number, place)?;
        let parts = numbers.iter().zip(&wholes).zip(&decimals).take(count);
        Ok(parts
            .map(|((&number, &whole), &decimals)| Value::told(number, whole, decimals))
            .collect())
    }
}
