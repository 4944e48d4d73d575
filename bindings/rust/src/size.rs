//! The sizes of the message forms and of what is lent, in bytes or numbers. A longer buffer is used at its front.
//!
//! What a form has of its own stands in [`small`] and [`large`], and [`Form`](crate::Form) gives the same by a value.

/// The numbers of a segment row: kind, owner, first leaf, leaf count.
pub const SEGMENT_ROW: usize = 4;

/// The numbers of a leaf row: the five of its place, then where its text starts and how long it is.
pub const LEAF_ROW: usize = 7;

/// The bytes that every listing has room in.
pub const LISTING: usize = 8448;

/// The numbers of a card.
pub const CARD: usize = 5;

/// The least bytes of an output that a value is written into.
pub const VALUE_TEXT: usize = 17;

/// The most codes that an index names.
pub const INDEX_CODES_MOST: usize = 512;

/// The most bytes that a code of an index has.
pub const INDEX_CODE_MOST: usize = 22;

/// The bytes of a code's place in an index: its length, and room for the longest.
pub const INDEX_PLACE: usize = 23;

/// The bytes of an index: a place for each code.
pub const INDEX_CODES_BYTES: usize = 11776;

/// The numbers of an index: how many codes are named, and a count for each place.
pub const INDEX_COUNTS: usize = 513;

/// The numbers of a tally.
pub const TALLY: usize = 3;

/// The sizes of [`Form::Small`](crate::Form::Small).
pub mod small {
    /// The most bytes that an accepted message has.
    pub const MESSAGE: usize = 16384;

    /// The least bytes of a text area.
    pub const TEXT: usize = 16384;

    /// The least numbers of segment rows: room for 256 of them.
    pub const SEGMENTS: usize = 1024;

    /// The least numbers of leaf rows: room for 2,048 of them.
    pub const LEAVES: usize = 14336;

    /// The least bytes of an output.
    pub const OUTPUT: usize = 16384;

    /// The most numeric results that an order may have: one for each segment.
    pub const VALUES: usize = 256;
}

/// The sizes of [`Form::Large`](crate::Form::Large).
pub mod large {
    /// The most bytes that an accepted message has.
    pub const MESSAGE: usize = 1048576;

    /// The least bytes of a text area.
    pub const TEXT: usize = 1048576;

    /// The least numbers of segment rows: room for 4,096 of them.
    pub const SEGMENTS: usize = 16384;

    /// The least numbers of leaf rows: room for 65,536 of them.
    pub const LEAVES: usize = 458752;

    /// The least bytes of an output.
    pub const OUTPUT: usize = 1048576;

    /// The most numeric results that an order may have: one for each segment.
    pub const VALUES: usize = 4096;
}
