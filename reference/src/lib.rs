//! Document 01 and what document 02 adds, in plain Rust: a reference to test `liblevel.a` against and to
//! time it beside.
//!
//! [`Reference`] answers the calls of [`Level`]. It is lent the whole book with every call, tests
//! all of it and works everything out anew; only its scratch room is kept from one call to the next.
//! It never panics, whatever it is lent.

mod adjust;
mod answers;
#[cfg(feature = "archive")]
pub mod archive;
mod book;
pub mod bridge;
mod calls;
mod file;
mod header;
mod network;
mod paths;
mod sketch;
mod text;
pub mod trial;

pub use answers::{Adjusted, Answer, Kind, Level, Listed, Rated, ReadAnswer, Sketched, Written};
pub use book::{Lent, LentMut, Version};
pub use calls::Reference;
pub use file::file_of;
pub use network::{line_allows, verdict};

pub const MAX_MARKS: usize = 256;
pub const MAX_LINES: usize = 512;
/// The lines of a book's loops in all are no more: 257 loops on 256 marks, each with a line to a mark.
pub const MAX_LISTED: usize = (MAX_MARKS + 1) * MAX_MARKS;
pub const MAX_HELD: usize = 256;
pub const MAX_TOLERANCE: i64 = 1_000;
/// The tolerance of each class of line, in tenths of mm per root km.
pub const TOLERANCES: [i64; 5] = [40, 50, 60, 80, 120];
/// In the place of a class in a version 1 book: the line's tolerance is the book's.
pub const NO_CLASS: i64 = -1;
pub const MAX_DIFFERENCE: i64 = 100_000_000;
pub const MIN_LENGTH: i64 = 10;
pub const MAX_LENGTH: i64 = 100_000;
/// The verdict takes a shorter line as one of this length.
pub const MIN_JUDGED: i64 = 250;
pub const MAX_HELD_HEIGHT: i64 = 10_000_000_000;
pub const MAX_HEIGHT: i64 = 50_000_000_000;
pub const MAX_SWEEPS: i64 = 10_000;

/// Bytes of a file's head and of one held entry; those of a line go by the [`Version`].
pub const HEAD_BYTES: usize = 13;
pub const HELD_BYTES: usize = 10;
/// No book's file is longer.
pub const MAX_FILE: usize = Version::TWO.file_bytes(MAX_HELD, MAX_LINES);

/// Bytes that the programs read.
pub const MAX_READ: usize = 16_384;

/// Numbers of one line in memory: from, to, difference, length, standing, class.
pub const LINE: usize = 6;
/// Numbers of one held entry in memory: mark, height.
pub const HELD: usize = 2;
/// Numbers of one report row: closing line, count of lines, length, misclosure, verdict.
pub const ROW: usize = 5;
/// Numbers of one link, spur or loop of the sketch: first mark, last mark, count of lines, length,
/// difference.
pub const ENTRY: usize = 5;
