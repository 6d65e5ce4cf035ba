//! A stand-in for `liblevel.a`: the reference behind the same C functions, well or with one fault.
//!
//! The environment names the fault (LEVEL_FAULT); without one the stand-in is right. `try-faults` uses
//! it to see that the differential test passes what is right and finds each fault.

mod exports;
pub mod faults;
pub mod program;
mod writer;
