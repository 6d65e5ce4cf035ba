//! What the differential test, the bench and the tests of the reference share: books of every shape,
//! damage, calls with their lent buffers, round trips of files, and a search for the smallest book that still
//! differs.

pub mod asks;
pub mod buffer;
pub mod call;
pub mod damage;
pub mod program;
pub mod random;
pub mod round_trip;
pub mod shapes;
pub mod shrink;
pub mod words;

use crate::{file_of, Lent, LentMut, Version, HELD, LINE};

/// A book in memory, good or not.
#[derive(Clone, Debug, PartialEq, Eq)]
pub struct Book {
    pub version: i64,
    pub b: i64,
    pub t: i64,
    pub held: Vec<i64>,
    pub lines: Vec<i64>,
}

impl Book {
    /// Whole lines in the book, withdrawn ones too.
    pub fn lines_count(&self) -> usize {
        self.lines.len() / LINE
    }

    /// Whole held entries in the book.
    pub fn held_count(&self) -> usize {
        self.held.len() / HELD
    }

    /// A copy of a lent book.
    pub fn of(Lent { version, b, t, held, lines }: Lent) -> Self {
        Book { version, b, t, held: held.to_vec(), lines: lines.to_vec() }
    }

    pub fn lent(&self) -> Lent<'_> {
        let Book { version, b, t, ref held, ref lines } = *self;
        Lent { version, b, t, held, lines }
    }

    pub fn lent_mut(&mut self) -> LentMut<'_> {
        let Book { version, b, t, ref held, ref mut lines } = *self;
        Lent { version, b, t, held, lines }
    }

    /// The same network in version 2, each line by its place from 0 with a class.
    pub fn classed(mut self, mut class: impl FnMut(usize) -> i64) -> Self {
        (self.version, self.t) = (2, 0);
        for (i, line) in self.lines.chunks_exact_mut(LINE).enumerate() {
            line[5] = class(i);
        }
        self
    }

    /// What its version decides; version 1 where there is no such.
    pub fn limits(&self) -> &'static Version {
        self.lent().limits()
    }

    /// The book's file.
    pub fn file(&self) -> Vec<u8> {
        file_of(self.lent())
    }
}

/// The held entries and lines that a file's head tells of, if they are all there, and its version; version 1 where
/// there is no such.
fn file_counts(file: &[u8]) -> Option<(usize, usize, &'static Version)> {
    let two = |at: usize| Some(u16::from_be_bytes([*file.get(at)?, *file.get(at + 1)?]) as usize);
    let (held, lines) = (two(9)?, two(11)?);
    let version = Version::of(file[4] as i64).unwrap_or(&Version::ONE);
    (version.file_bytes(held, lines) <= file.len()).then_some((held, lines, version))
}
