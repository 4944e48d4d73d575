//! Values: numbers as texts say them.

use crate::answer;
use crate::ffi;
use crate::number::Refusal;
use crate::size;
use crate::text::latin1;
use std::fmt;
use std::str::FromStr;

/// A number as its text says it, with nothing rounded: the whole number that all its digits make, with its sign, and how many of them stand
/// behind the point. So `-.52` is -52 with 2 decimals.
///
/// It is always one that some text says: it comes from reading ([`read_value`], [`Table::order_values`](crate::Table::order_values)), or
/// [`Value::new`] has looked at it. Two values are equal where both parts are: `1.5` and `1.50` are not.
///
/// It is shown as the shortest text that reads to it, `.5` and not `0.5`, and parsed from any that does. For people, show the text that was sent.
///
/// ```
/// use sargaceu::Value;
/// let value: Value = "-0.52".parse()?;
/// assert_eq!((value.whole(), value.decimals()), (-52, 2));
/// assert_eq!(value.to_string(), "-.52");
/// assert_eq!("-.52".parse(), Ok(value));
/// # Ok::<(), sargaceu::Refusal>(())
/// ```
#[derive(Clone, Copy, Debug, PartialEq, Eq, Hash)]
pub struct Value {
    whole: i64,
    decimals: u8,
}

impl Value {
    /// The value of a whole number and a count of decimals. Refused with [`Number::OutOfRange`](crate::Number::OutOfRange) where no text says
    /// it: the whole number has over 15 digits, or there are over 15 decimals.
    ///
    /// ```
    /// use sargaceu::{Number, Value};
    /// assert_eq!(Value::new(1234, 2)?.to_string(), "12.34");
    /// assert_eq!(Value::new(i64::MIN, 0).unwrap_err().number, Number::OutOfRange);
    /// assert_eq!(Value::new(0, 16).unwrap_err().number, Number::OutOfRange);
    /// # Ok::<(), sargaceu::Refusal>(())
    /// ```
    pub fn new(whole: i64, decimals: u8) -> Result<Value, Refusal> {
        let value = Value { whole, decimals };
        value.write(&mut [0; size::VALUE_TEXT])?;
        Ok(value)
    }

    /// The whole number that all digits make, with its sign.
    pub fn whole(self) -> i64 {
        self.whole
    }

    /// How many of the digits stand behind the point, 15 at most.
    pub fn decimals(self) -> u8 {
        self.decimals
    }

    /// Writes the shortest text that reads to the value at the front of an output of at least [`size::VALUE_TEXT`] bytes, and allocates
    /// nothing; what comes back is how many bytes the text has. A shorter output is refused with
    /// [`Number::NarrowOutput`](crate::Number::NarrowOutput), for a short text too, and not touched.
    ///
    /// ```
    /// # use sargaceu::Value;
    /// let mut output = [0; sargaceu::size::VALUE_TEXT];
    /// let bytes = Value::new(-5, 1)?.write(&mut output)?;
    /// assert_eq!(&output[..bytes], b"-.5");
    /// # Ok::<(), sargaceu::Refusal>(())
    /// ```
    pub fn write(self, output: &mut [u8]) -> Result<usize, Refusal> {
        let mut answer = [0; answer::TEXT_ANSWER];
        // SAFETY: each pointer and its count are those of a slice that lives on during the call. Both are borrowed as `&mut`, so they
        // overlap nothing.
        let number = unsafe {
            ffi::sargaceu_write_value(
                self.whole,
                self.decimals.into(),
                output.as_mut_ptr(),
                output.len(),
                answer.as_mut_ptr(),
                answer.len(),
            )
        };
        Refusal::told(number, 0)?;
        let [bytes] = answer;
        Ok(bytes)
    }

    /// The value that the library answers by a number, a whole number and a count of decimals, or its refusal of the text.
    pub(crate) fn told(number: u8, whole: i64, decimals: u8) -> Result<Value, Refusal> {
        Refusal::told(number, 0)?;
        Ok(Value { whole, decimals })
    }
}

/// The value of a text of any length: a sign or none, then digits, at most one point among them and a digit behind it. Refused with
/// [`Number::NotANumber`](crate::Number::NotANumber) where it is nothing of that form, and with
/// [`Number::ManyDigits`](crate::Number::ManyDigits) where it has over 15 digits, zeros in front too. The place of both is 0.
///
/// ```
/// use sargaceu::{read_value, Number};
/// let value = read_value(b"+12.30")?;
/// assert_eq!((value.whole(), value.decimals()), (1230, 2));
/// assert_eq!(read_value(b"<0.5").unwrap_err().number, Number::NotANumber);
/// assert_eq!(read_value(b"0000000000000001").unwrap_err().number, Number::ManyDigits);
/// # Ok::<(), sargaceu::Refusal>(())
/// ```
pub fn read_value(text: &[u8]) -> Result<Value, Refusal> {
    let mut answer = [0; answer::VALUE_ANSWER];
    // SAFETY: each pointer and its count are those of a slice that lives on during the call. The answer, which is written, is borrowed as
    // `&mut`, so it overlaps nothing.
    let number = unsafe {
        ffi::sargaceu_read_value(text.as_ptr(), text.len(), answer.as_mut_ptr(), answer.len())
    };
    let [whole, decimals] = answer;
    let decimals = u8::try_from(decimals).expect("of 15 digits no more stand behind the point");
    Value::told(number, whole, decimals)
}

impl FromStr for Value {
    type Err = Refusal;

    fn from_str(text: &str) -> Result<Value, Refusal> {
        read_value(text.as_bytes())
    }
}

impl fmt::Display for Value {
    fn fmt(&self, f: &mut fmt::Formatter<'_>) -> fmt::Result {
        let mut output = [0; size::VALUE_TEXT];
        let bytes = self
            .write(&mut output)
            .expect("a value has a text, and an output of the stated size has room for it");
        let text = latin1(&output[..bytes]);
        // a width fills up in front, as of other numbers, and a precision cuts nothing off
        f.pad_integral(self.whole >= 0, "", text.trim_start_matches('-'))
    }
}
