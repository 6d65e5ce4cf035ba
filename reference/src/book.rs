//! The book as it is lent, and its tests: refusals 3, 4, 6 and 7.

use crate::answers::{refuse, refuse_at, Refusal};
use crate::*;
use std::ops::RangeInclusive;

/// All that a book's version decides: the limits of t and of a line's class, and a line's bytes in a file.
pub struct Version {
    pub number: i64,
    pub t: RangeInclusive<i64>,
    pub class: RangeInclusive<i64>,
    pub line_bytes: usize,
}

impl Version {
    /// One tolerance for all lines.
    pub const ONE: Version =
        Version { number: 1, t: 1..=MAX_TOLERANCE, class: NO_CLASS..=NO_CLASS, line_bytes: 12 };
    /// A tolerance for each line by its class, and two more bytes: class and standing.
    pub const TWO: Version =
        Version { number: 2, t: 0..=0, class: 0..=TOLERANCES.len() as i64 - 1, line_bytes: 14 };

    /// The version with this number, if there is one.
    pub fn of(number: i64) -> Option<&'static Version> {
        [&Version::ONE, &Version::TWO].into_iter().find(|version| version.number == number)
    }

    /// The version with this number, or 3.
    pub(crate) fn test(number: i64) -> Result<&'static Version, Refusal> {
        Version::of(number).map_or(refuse(3), Ok)
    }

    /// Bytes of a file with so many held entries and lines.
    pub const fn file_bytes(&self, held: usize, lines: usize) -> usize {
        HEAD_BYTES + HELD_BYTES * held + self.line_bytes * lines
    }
}

/// A lent book: its lines are to be read or, in a [`LentMut`], to be corrected.
#[derive(Clone, Copy, Debug)]
pub struct Lent<'a, Lines = &'a [i64]> {
    pub version: i64,
    pub b: i64,
    pub t: i64,
    pub held: &'a [i64],
    pub lines: Lines,
}

/// A book that is lent to be corrected.
pub type LentMut<'a> = Lent<'a, &'a mut [i64]>;

impl LentMut<'_> {
    /// The book, lent on to be read.
    pub fn lent(&self) -> Lent<'_> {
        let Lent { version, b, t, held, .. } = *self;
        Lent { version, b, t, held, lines: self.lines }
    }

    /// The book, lent on to be corrected.
    pub fn lent_mut(&mut self) -> LentMut<'_> {
        let Lent { version, b, t, held, .. } = *self;
        Lent { version, b, t, held, lines: self.lines }
    }
}

impl Lent<'_> {
    /// What its version decides; version 1 where there is no such.
    pub fn limits(&self) -> &'static Version {
        Version::of(self.version).unwrap_or(&Version::ONE)
    }

    /// 3, 4, 6 and 7, in that order.
    pub(crate) fn test(&self) -> Result<(), Refusal> {
        self.test_beside(true)
    }

    /// The same; 4 also where what is lent beside the book is not good.
    pub(crate) fn test_beside(&self, good: bool) -> Result<(), Refusal> {
        let version = Version::test(self.version)?;
        let whole = self.held.len().is_multiple_of(HELD) && self.lines.len().is_multiple_of(LINE);
        if !(whole && good) {
            return refuse(4);
        }
        test_head(version, self.b, self.t, self.held.len() / HELD, self.lines.len() / LINE)?;
        test_held(self.b, self.held)?;
        test_lines(version, self.b, self.lines)
    }

    /// A line's six numbers, or 8.
    pub(crate) fn line(&self, number: i64) -> Result<&[i64], Refusal> {
        if number < 1 || number > (self.lines.len() / LINE) as i64 {
            return refuse(8);
        }
        Ok(&self.lines[LINE * (number as usize - 1)..][..LINE])
    }

    /// 8, of a line to be corrected.
    pub(crate) fn test_standing(&self, number: i64) -> Result<(), Refusal> {
        if self.line(number)?[4] == 0 {
            return refuse(8);
        }
        Ok(())
    }
}

/// Whether x is -limit to limit.
pub(crate) fn within(x: i64, limit: i64) -> bool {
    (-limit..=limit).contains(&x)
}

/// 4, of the four numbers in a book's head.
pub(crate) fn test_head(
    version: &Version,
    b: i64,
    t: i64,
    h: usize,
    n: usize,
) -> Result<(), Refusal> {
    let marks = (1..=MAX_MARKS as i64).contains(&b);
    if marks && version.t.contains(&t) && h <= MAX_HELD && n <= MAX_LINES {
        Ok(())
    } else {
        refuse(4)
    }
}

/// 6: the first entry whose mark or height is outside, or whose mark an earlier entry holds.
pub(crate) fn test_held(b: i64, held: &[i64]) -> Result<(), Refusal> {
    let mut seen = [false; MAX_MARKS + 1];
    for (i, entry) in held.chunks_exact(HELD).enumerate() {
        let (mark, height) = (entry[0], entry[1]);
        let good = (1..=b).contains(&mark) && within(height, MAX_HELD_HEIGHT);
        if !good || seen[mark as usize] {
            return refuse_at(6, i as i64 + 1);
        }
        seen[mark as usize] = true;
    }
    Ok(())
}

/// 7: the first line with a number outside; withdrawn lines are tested too.
pub(crate) fn test_lines(version: &Version, b: i64, lines: &[i64]) -> Result<(), Refusal> {
    for (i, line) in lines.chunks_exact(LINE).enumerate() {
        let ends = (1..=b).contains(&line[0]) && (1..=b).contains(&line[1]) && line[0] != line[1];
        let difference = within(line[2], MAX_DIFFERENCE);
        let length = (MIN_LENGTH..=MAX_LENGTH).contains(&line[3]);
        let standing = line[4] == 0 || line[4] == 1;
        let class = version.class.contains(&line[5]);
        if !(ends && difference && length && standing && class) {
            return refuse_at(7, i as i64 + 1);
        }
    }
    Ok(())
}
