//! Sargaceu for Rust: the reader, the writer, the lookups, the numeric results and the screening check of laboratory messages in H.PR.I.M.
//! Santé 2.4, the widening of archived tables, and the index by analysis code.
//!
//! The work is done by a library whose every function is proved to meet its contract for all inputs; this crate lends it slices and
//! names what comes back. `./archive` in the repository's folder makes that library, for x86-64 Linux.
//!
//! ```
//! use sargaceu::{Buffers, Form, Kind, Row};
//!
//! let message = b"H|~^\\&|||LAB||ORU\rP|1||||DUPONT~JEAN\rOBR|1\rOBX|1|NM|GLY||1.2\rL|1\r";
//! let mut buffers = Buffers::new(Form::Small);
//! let table = buffers.read(message)?;
//! for patient in table.children(Row::FIRST, Kind::P) {
//!     for order in table.children(patient, Kind::OBR) {
//!         for result in table.children(order, Kind::OBX) {
//!             let value = table.leaf(result.field(6)).text_or(b"-");
//!             assert_eq!(value, b"1.2");
//!         }
//!     }
//! }
//! # Ok::<(), sargaceu::Refusal>(())
//! ```
//!
//! - A message of any bytes is read to a [`Table`], into [`Buffers`] or by [`read`] into buffers of the caller's, or is refused with one
//!   [`Number`] and one place, a [`Refusal`].
//! - A message has one of two forms, a [`Form`]: the small one has up to 16,384 bytes, the large one up to 1,048,576. Buffers are of a form, and
//!   a table is judged by the form that it was read in.
//! - A table has its [`Card`], its [`rows`](Table::rows) (a [`Segment`] each, by its [`Row`]) and its [`leaves`](Table::leaves).
//!   [`children`](Table::children) finds the rows that belong to a row, [`leaf`](Table::leaf) the leaf at a [`Place`], [`Sought`] in three
//!   ways: found, found empty, not there; [`same_order`](Table::same_order) compares two orders.
//! - [`order_values`](Table::order_values) gives the numeric results of an order as numbers, a [`Value`] each; [`read_value`] reads one text, and a
//!   value is shown as the shortest text that reads to it.
//! - [`screen`](Table::screen) says whether a report meets the rules for screening, or which one it does not meet, and in which row.
//! - [`write`](Table::write) and [`to_message`](Table::to_message) give a message that reads to the same table.
//! - [`Buffers::widen`] takes a table of the archive, whose rows hold numbers of 16 bits, and gives the one that reading its message gives now.
//! - [`Buffers::read_indexed`] reads a message and counts the codes of its results in an [`Index`], and the message in a [`Tally`].
//! - [`lines()`] walks the lines of a file, [`row_place()`] and [`rows_in`] say where rows stand in it, and [`position()`] gives line and column of
//!   an offset; a [`Watcher`] says which [`Kind`] may come next in a [`Context`], and so does [`next_kinds`]; [`Buffers::list`] lists a message.
//!
//! No function panics, whatever it is given. Where the crate asserts something, it is what the library promises.

#![deny(missing_docs)]

mod answer;
mod card;
mod children;
mod context;
mod ffi;
mod form;
mod index;
mod indexing;
mod kind;
mod leaf;
mod lines;
mod listing;
mod number;
mod order;
mod place;
mod position;
mod reading;
mod results;
mod row;
mod row_place;
mod screening;
mod segment;
pub mod size;
mod sought;
mod table;
mod text;
mod unknown;
mod value;
mod version;
mod watcher;
mod widening;
mod writing;

pub use card::Card;
pub use children::Children;
pub use context::Context;
pub use form::Form;
pub use index::{Index, Tally};
pub use indexing::read_indexed;
pub use kind::Kind;
pub use leaf::{Leaf, Leaves};
pub use lines::{lines, Line, Lines};
pub use number::{Number, Refusal};
pub use place::Place;
pub use position::{position, Position};
pub use reading::{read, Buffers};
pub use row::{Entry, Row};
pub use row_place::{row_place, rows_in, RowPlace, RowsIn};
pub use segment::{Rows, Segment};
pub use sought::Sought;
pub use table::Table;
pub use text::latin1;
pub use unknown::Unknown;
pub use value::{read_value, Value};
pub use version::{version, VERSION};
pub use watcher::{next_kinds, Watcher};
pub use widening::widen;
pub use writing::Written;
