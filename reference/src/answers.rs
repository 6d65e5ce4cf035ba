//! The calls, and what they answer, laid out as in `include/level.h`.

use crate::{Lent, LentMut};

/// A refusal by document 01's table.
#[derive(Clone, Copy, Debug, PartialEq, Eq)]
pub(crate) struct Refusal {
    pub number: i64,
    pub place: i64,
}

/// Refuses with a number, at no place.
pub(crate) const fn refuse<T>(number: i64) -> Result<T, Refusal> {
    refuse_at(number, 0)
}

/// Refuses with a number at a place.
pub(crate) const fn refuse_at<T>(number: i64, place: i64) -> Result<T, Refusal> {
    Err(Refusal { number, place })
}

/// The reader's answer.
#[repr(C)]
#[derive(Clone, Copy, Debug, Default, PartialEq, Eq)]
pub struct ReadAnswer {
    pub number: i64,
    pub place: i64,
    pub version: i64,
    pub b: i64,
    pub t: i64,
    pub h: i64,
    pub n: i64,
}

/// The writer's answer: the bytes that the file has.
#[repr(C)]
#[derive(Clone, Copy, Debug, Default, PartialEq, Eq)]
pub struct Written {
    pub number: i64,
    pub place: i64,
    pub bytes: i64,
}

/// The answer of survey, re-run and withdrawal.
#[repr(C)]
#[derive(Clone, Copy, Debug, Default, PartialEq, Eq)]
pub struct Answer {
    pub number: i64,
    pub place: i64,
    pub rows: i64,
    pub pieces: i64,
}

/// The answer of the three lists.
#[repr(C)]
#[derive(Clone, Copy, Debug, Default, PartialEq, Eq)]
pub struct Listed {
    pub number: i64,
    pub place: i64,
    pub entries: i64,
}

/// The answer of the junction sketch.
#[repr(C)]
#[derive(Clone, Copy, Debug, Default, PartialEq, Eq)]
pub struct Sketched {
    pub number: i64,
    pub place: i64,
    pub links: i64,
    pub spurs: i64,
    pub loops: i64,
    pub run: i64,
}

/// The answer of the adjustment.
#[repr(C)]
#[derive(Clone, Copy, Debug, Default, PartialEq, Eq)]
pub struct Adjusted {
    pub number: i64,
    pub place: i64,
    pub sweeps: i64,
}

/// A line's correction and rate, or that the line is withdrawn (1).
#[repr(C)]
#[derive(Clone, Copy, Debug, Default)]
pub struct Rated {
    pub number: i64,
    pub place: i64,
    pub line: i64,
    pub correction: i64,
    pub withdrawn: i64,
    pub rate: f64,
}

/// Two answers are the same if their rates are, bit by bit.
impl PartialEq for Rated {
    fn eq(&self, other: &Rated) -> bool {
        let numbers = |r: &Rated| [r.number, r.place, r.line, r.correction, r.withdrawn];
        numbers(self) == numbers(other) && self.rate.to_bits() == other.rate.to_bits()
    }
}

/// The calls, in the order of `include/level.h` and of the server.
#[derive(Clone, Copy, Debug, PartialEq, Eq)]
pub enum Kind {
    Read,
    Write,
    Survey,
    Listing,
    Listings,
    NotChecked,
    Sketch,
    Rerun,
    Withdraw,
    Adjust,
    Rate,
}

/// Who answers the calls, in the words of `include/level.h`.
pub trait Level {
    fn read(&mut self, file: &[u8], held: &mut [i64], lines: &mut [i64]) -> ReadAnswer;
    fn write(&mut self, book: Lent, file: &mut [u8]) -> Written;
    fn survey(&mut self, book: Lent, rows: &mut [i64]) -> Answer;
    fn listing(&mut self, book: Lent, number: i64, out: &mut [i64]) -> Listed;
    fn listings(&mut self, book: Lent, out: &mut [i64]) -> Listed;
    fn not_checked(&mut self, book: Lent, out: &mut [i64]) -> Listed;
    fn sketch(
        &mut self,
        book: Lent,
        links: &mut [i64],
        spurs: &mut [i64],
        loops: &mut [i64],
        run: &mut [i64],
    ) -> Sketched;
    fn rerun(&mut self, book: LentMut, report: &mut [i64], line: i64, difference: i64) -> Answer;
    fn withdraw(&mut self, book: LentMut, report: &mut [i64], line: i64) -> Answer;
    fn adjust(&mut self, book: Lent, heights: &mut [i64]) -> Adjusted;
    fn rate(&mut self, book: Lent, heights: &[i64], line: i64) -> Rated;
}
