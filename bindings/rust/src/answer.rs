//! The sizes of the answers that are lent to the library, in numbers or bytes.

/// The numbers that reading, with an index or without, and widening answer: the place, then the card.
pub const READ_ANSWER: usize = 6;

/// The numbers that the writer answers: the place, the bytes, the lines.
pub const WRITE_ANSWER: usize = 3;

/// The numbers that a lookup of a leaf answers: start and length of the text.
pub const LEAF_ANSWER: usize = 2;

/// The numbers that the line walk answers: where the line ends, and where the next one begins.
pub const LINE_ANSWER: usize = 2;

/// The numbers that the place of a row is answered by, where it begins, and the row at a place, where the next one begins.
pub const ROW_ANSWER: usize = 1;

/// The numbers that a position is answered by: the column.
pub const POSITION_ANSWER: usize = 1;

/// The bytes of an order watcher.
pub const WATCHER: usize = 2;

/// The bytes that the kinds which may come next are answered by: one for each number from 0 to the last kind.
pub const NEXT_KINDS: usize = 13;

/// The numbers that the value of a text is answered by: the whole number and the decimals.
pub const VALUE_ANSWER: usize = 2;

/// The numbers that writing a value answers: the bytes of the text.
pub const TEXT_ANSWER: usize = 1;

/// The numbers that the values of an order are counted by: the place and the count.
pub const ORDER_ANSWER: usize = 2;

/// The numbers that the screening check answers: the place.
pub const SCREEN_ANSWER: usize = 1;

/// The numbers that the count of an index's codes is answered by: the count.
pub const CODES_ANSWER: usize = 1;

/// The numbers that the count of a code is answered by: the count.
pub const COUNT_ANSWER: usize = 1;

/// The numbers that a code of an index is answered by: where it begins, its length, its count.
pub const CODE_ANSWER: usize = 3;
