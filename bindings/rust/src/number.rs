//! The numbers that come back where a call is refused, and the refusal itself.

use crate::unknown::Unknown;
use std::error::Error;
use std::fmt;

/// What a call is refused for.
///
/// ```
/// use sargaceu::Number;
/// assert_eq!(Number::OpenLine.to_string(), "the last line is not closed");
/// assert_eq!(Number::OpenLine as u8, 6);
/// assert_eq!(Number::try_from(6), Ok(Number::OpenLine));
/// ```
#[derive(Clone, Copy, Debug, PartialEq, Eq, PartialOrd, Ord, Hash)]
#[non_exhaustive]
#[repr(u8)]
pub enum Number {
    /// A lent buffer is under the size that its form states.
    ShortBuffer = 1,
    /// The message has more bytes than its form allows.
    LongMessage = 2,
    /// The message does not begin as the header rule asks.
    BrokenHeader = 3,
    /// A control byte inside a line; the place is its offset.
    ControlByte = 4,
    /// A line is too long; the place is the offset of its 220th byte.
    LongLine = 5,
    /// The last line has no CR; the place is the message's length.
    OpenLine = 6,
    /// The message has more segments than its form allows.
    ManySegments = 7,
    /// A kind that is none of the twelve; the place is the first such segment.
    UnknownKind = 8,
    /// The header names none of the seven contexts.
    NoContext = 9,
    /// A kind stands where it may not; the place is the first such segment, or one past the last where the L is missing.
    Misplaced = 10,
    /// The message has more leaves than its form allows.
    ManyLeaves = 11,
    /// The output lent to the writer is under the size that the table's form states.
    ShortOutput = 12,
    /// The numbers and the text are no table of the form.
    NoTable = 13,
    /// A text says no number; of a result also: its field 6 is not there, or is several leaves.
    NotANumber = 20,
    /// The text of a number has too many digits.
    ManyDigits = 21,
    /// A whole number and its decimals are a value that no text says.
    OutOfRange = 22,
    /// The output lent for the text of a value is under its stated size.
    NarrowOutput = 23,
    /// The row is no order of the table.
    NotAnOrder = 24,
    /// A buffer lent for the values has fewer elements than the order has numeric results.
    LittleRoom = 25,
    /// The message is no ORU.
    NotAReport = 30,
    /// A patient's name in use (8.6.1) is missing, that is not there or empty; the place is the first such P.
    NoName = 31,
    /// A patient's first name (8.6.2) is missing; the place is the first such P.
    NoFirstName = 32,
    /// A patient's birth name (8.7) is missing; the place is the first such P.
    NoBirthName = 33,
    /// A patient's telephone (8.13) is missing; the place is the first such P.
    NoTelephone = 34,
    /// The postal code of a patient's address (8.11.5) is missing; the place is the first such P.
    NoPostalCode = 35,
    /// An order's number in the laboratory (9.4.2) is missing; the place is the first such OBR.
    NoOrderNumber = 36,
    /// The time at which an order's sample was taken (9.8) is missing; the place is the first such OBR.
    NoSampleTime = 37,
    /// The laboratory's code (7.5.1) is missing; the place is the row of the header, which is 1.
    NoLaboratory = 38,
    /// A patient has no result with the code PAYS (10.4.1), or several; the place is the first such P.
    NotOnePays = 39,
    /// A patient has no TYPOR, or several; the place is the first such P.
    NotOneTypor = 40,
    /// A patient has no PROSS, or several; the place is the first such P.
    NotOnePross = 41,
    /// A patient has no FINGE, or several; the place is the first such P.
    NotOneFinge = 42,
    /// The value (10.6.1) of a TYPOR is none of I, H, E, C, A, U, or is missing; the place is the first such OBX.
    WrongTypor = 43,
    /// The value of a PROSS is none of O, N, U, or is missing; the place is the first such OBX.
    WrongPross = 44,
    /// The value of a result of type CE with a LOINC code (10.4.3 or 10.4.6 is LN) is none of P, N, I, X, or is missing; the place is the first
    /// such OBX.
    WrongResult = 45,
    /// No reader gave the archived table, be it by the owners in force or by the former ones.
    NeverRead = 46,
    /// The code of a result (10.4.1) has over 22 bytes, so an index cannot name it; the place is the first such OBX.
    LongCode = 50,
    /// A code is new to the index, and all of its 512 places are taken.
    FullIndex = 51,
    /// A count of the index or a number of the tally would pass the last one that 32 bits hold.
    FullCount = 52,
    /// The bytes and numbers are no index.
    NoIndex = 53,
}

impl Number {
    const ALL: [Number; 40] = [
        Number::ShortBuffer,
        Number::LongMessage,
        Number::BrokenHeader,
        Number::ControlByte,
        Number::LongLine,
        Number::OpenLine,
        Number::ManySegments,
        Number::UnknownKind,
        Number::NoContext,
        Number::Misplaced,
        Number::ManyLeaves,
        Number::ShortOutput,
        Number::NoTable,
        Number::NotANumber,
        Number::ManyDigits,
        Number::OutOfRange,
        Number::NarrowOutput,
        Number::NotAnOrder,
        Number::LittleRoom,
        Number::NotAReport,
        Number::NoName,
        Number::NoFirstName,
        Number::NoBirthName,
        Number::NoTelephone,
        Number::NoPostalCode,
        Number::NoOrderNumber,
        Number::NoSampleTime,
        Number::NoLaboratory,
        Number::NotOnePays,
        Number::NotOneTypor,
        Number::NotOnePross,
        Number::NotOneFinge,
        Number::WrongTypor,
        Number::WrongPross,
        Number::WrongResult,
        Number::NeverRead,
        Number::LongCode,
        Number::FullIndex,
        Number::FullCount,
        Number::NoIndex,
    ];

    /// What the place counts that comes with this number, or nothing where the place is always 0.
    fn counted(self) -> Option<&'static str> {
        match self {
            Number::ControlByte | Number::LongLine | Number::OpenLine => Some("offset"),
            Number::UnknownKind | Number::Misplaced => Some("segment"),
            Number::LongCode => Some("row"),
            _ if (Number::NoName..=Number::WrongResult).contains(&self) => Some("row"),
            _ => None,
        }
    }
}

impl fmt::Display for Number {
    fn fmt(&self, f: &mut fmt::Formatter<'_>) -> fmt::Result {
        f.pad(match self {
            Number::ShortBuffer => {
                "a lent buffer is short: the text area has under 16,384 bytes, the segment rows under 1,024 numbers \
                 or the leaf rows under 14,336; in the large form under 1,048,576, 16,384 or 458,752"
            }
            Number::LongMessage => {
                "the message has over 16,384 bytes, in the large form over 1,048,576"
            }
            Number::BrokenHeader => {
                "the message does not begin with H, five different separators and the field separator again, \
                 or there are under seven bytes"
            }
            Number::ControlByte => "a control byte inside a line",
            Number::LongLine => "a line is too long",
            Number::OpenLine => "the last line is not closed",
            Number::ManySegments => "over 256 segments, in the large form over 4,096",
            Number::UnknownKind => "a kind that is unknown",
            Number::NoContext => "no context, or no field 7 in the header",
            Number::Misplaced => {
                "a kind stands where it may not, or the order breaks off before L"
            }
            Number::ManyLeaves => "over 2,048 leaves, in the large form over 65,536",
            Number::ShortOutput => {
                "the output lent to the writer is under 16,384 bytes, in the large form under 1,048,576"
            }
            Number::NoTable => "the table is one that no message of the form reads to",
            Number::NotANumber => "the text says no number",
            Number::ManyDigits => "the text says a number of over 15 digits",
            Number::OutOfRange => {
                "no text says the value: the whole number has over 15 digits, or there are over 15 decimals"
            }
            Number::NarrowOutput => "the output lent for the text of a value is under 17 bytes",
            Number::NotAnOrder => "the row is no order of the table",
            Number::LittleRoom => "a buffer lent for the values has fewer elements than the order has numeric results",
            Number::NotAReport => "the message is no ORU",
            Number::NoName => "a patient has no name in use (8.6.1)",
            Number::NoFirstName => "a patient has no first name (8.6.2)",
            Number::NoBirthName => "a patient has no birth name (8.7)",
            Number::NoTelephone => "a patient has no telephone (8.13)",
            Number::NoPostalCode => "a patient has no postal code (8.11.5)",
            Number::NoOrderNumber => "an order has no number in the laboratory (9.4.2)",
            Number::NoSampleTime => "an order has no time of sampling (9.8)",
            Number::NoLaboratory => "the header does not name the laboratory (7.5.1)",
            Number::NotOnePays => "a patient has no PAYS, or several",
            Number::NotOneTypor => "a patient has no TYPOR, or several",
            Number::NotOnePross => "a patient has no PROSS, or several",
            Number::NotOneFinge => "a patient has no FINGE, or several",
            Number::WrongTypor => "a TYPOR has none of the values I, H, E, C, A, U",
            Number::WrongPross => "a PROSS has none of the values O, N, U",
            Number::WrongResult => "a coded result with a LOINC code (LN) has none of the values P, N, I, X",
            Number::NeverRead => {
                "no reader gave the archived table, by the owners in force or by the former ones"
            }
            Number::LongCode => "the code of a result (10.4.1) has over 22 bytes",
            Number::FullIndex => "a code is new to the index, which names 512 already",
            Number::FullCount => "a count of the index or the tally would pass 4,294,967,295",
            Number::NoIndex => {
                "what is lent is no index: too short for 512 codes or naming more, a code of 0 or of over 22 bytes, \
                 or codes that do not rise"
            }
        })
    }
}

impl TryFrom<u8> for Number {
    type Error = Unknown;

    fn try_from(number: u8) -> Result<Number, Unknown> {
        let stated = Number::ALL.iter().find(|&&stated| stated as u8 == number);
        stated.copied().ok_or(Unknown { what: "refusal" })
    }
}

impl From<Number> for u8 {
    fn from(number: Number) -> u8 {
        number as u8
    }
}

/// A refused call: its number and the place that goes with it. Nothing that was lent has changed.
///
/// ```
/// let mut buffers = sargaceu::Buffers::new(sargaceu::Form::Small);
/// let refusal = buffers.read(b"H|~^\\&|||LAB||ORU\rA\rL|1\r").unwrap_err();
/// assert_eq!(refusal.number, sargaceu::Number::UnknownKind);
/// assert_eq!(refusal.place, 2);
/// assert_eq!(refusal.to_string(), "a kind that is unknown, at segment 2 (refusal 8)");
/// ```
#[derive(Clone, Copy, Debug, PartialEq, Eq, Hash)]
pub struct Refusal {
    /// What the call is refused for.
    pub number: Number,
    /// A byte's offset from 0, a segment or its row from 1, or 0: [`Number`] says which goes with it.
    pub place: usize,
}

impl Refusal {
    /// What the library says by a number and a place: nothing is refused where the number is 0.
    pub(crate) fn told(number: u8, place: usize) -> Result<(), Refusal> {
        if number == 0 {
            return Ok(());
        }
        // Every contract of the library states the numbers it answers, and these are all.
        let number = Number::try_from(number).expect("the library answers a number that it states");
        Err(Refusal { number, place })
    }
}

impl fmt::Display for Refusal {
    fn fmt(&self, f: &mut fmt::Formatter<'_>) -> fmt::Result {
        write!(f, "{}", self.number)?;
        if let Some(counted) = self.number.counted() {
            write!(f, ", at {counted} {}", self.place)?;
        }
        write!(f, " (refusal {})", self.number as u8)
    }
}

impl Error for Refusal {}
