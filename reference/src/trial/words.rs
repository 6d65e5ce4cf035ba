//! A call in words, for people.

use super::call::{Ask, Call, Kept};
use super::Book;
use crate::*;

/// The arguments of a call that are neither book nor buffer.
pub fn arguments(call: &Call) -> String {
    match call {
        Call::Ask { ask: Ask::Listing { number, .. }, .. } => format!("loop {number}"),
        Call::Ask { ask: Ask::Rerun { line, difference, kept }, .. } => {
            format!("line {line} difference {difference} {}", report_words(kept))
        }
        Call::Ask { ask: Ask::Withdraw { line, kept }, .. } => {
            format!("line {line} {}", report_words(kept))
        }
        Call::Ask { ask: Ask::Rate { heights, line }, .. } => {
            format!("line {line} heights {heights:?}")
        }
        _ => String::new(),
    }
}

fn report_words(kept: &Kept) -> String {
    let whose = if kept.rows.is_some() { "a given report" } else { "its own report" };
    let off = kept.off.map(|(from_last, by)| format!(", last but {from_last} off by {by}"));
    format!("with {whose} ({:+} places{})", kept.beyond, off.unwrap_or_default())
}

pub fn print_book(book: &Book) {
    println!("  version {} b {} t {}", book.version, book.b, book.t);
    for entry in book.held.chunks(HELD) {
        println!("  held {entry:?}");
    }
    for (number, line) in (1..).zip(book.lines.chunks(LINE)) {
        println!("  line {number}: {line:?}");
    }
}

pub fn print_file(file: &[u8]) {
    println!("  file of {} bytes", file.len());
    for part in file.chunks(24) {
        let bytes: Vec<String> = part.iter().map(|byte| format!("{byte:02x}")).collect();
        println!("  {}", bytes.join(" "));
    }
}
