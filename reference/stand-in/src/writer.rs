//! The reference's writer with one fault.

use crate::faults::{all_standing, fault};
use reference::trial::Book;
use reference::*;

/// Writes, with the fault.
pub fn write(reference: &mut Reference, book: Lent, file: &mut [u8]) -> Written {
    let old = file.to_vec();
    let right = reference.write(taken(book).lent(), file);
    let answer = answered(right, book, file.len());
    if answer.number != 0 {
        file.copy_from_slice(&old);
    }
    match fault() {
        "write-head-before-room" if answer.number == 10 => {
            let head = file.len().min(HEAD_BYTES);
            file[..head].copy_from_slice(&file_of(book)[..head]);
        }
        _ if answer.number == 0 => spoil(book, file, answer.bytes as usize),
        _ => {}
    }
    answer
}

fn withdrawn(line: &[i64]) -> bool {
    line.get(4) == Some(&0)
}

/// The book as a fault takes it.
fn taken(book: Lent) -> Book {
    let mut taken = Book::of(book);
    match fault() {
        "write-withdrawn-as-standing" if book.version == 1 => return all_standing(book),
        "write-without-withdrawn" => {
            let others = book.lines.chunks(LINE).filter(|line| !withdrawn(line));
            taken.lines = others.flatten().copied().collect();
        }
        "write-held-by-mark" => {
            let mut entries: Vec<&[i64]> = book.held.chunks(HELD).collect();
            entries.sort_by_key(|entry| entry[0]);
            taken.held = entries.concat();
        }
        _ => {}
    }
    taken
}

/// The answer that a fault gives for the right one, with so many places lent.
fn answered(right: Written, book: Lent, places: usize) -> Written {
    let number = right.number;
    let needed = file_of(book).len();
    let longest = Version::TWO.file_bytes(book.held.len() / HELD, book.lines.len() / LINE);
    let first = (1..).zip(book.lines.chunks(LINE)).find(|(_, line)| withdrawn(line));
    let refused = |number| Written { number, place: 0, bytes: 0 };
    match (fault(), first) {
        ("write-room-before-withdrawn", _) if number == 16 && places < needed => refused(10),
        ("write-withdrawn-before-lines", Some(_)) if number == 7 && book.version == 1 => {
            refused(16)
        }
        ("write-no-withdrawn-in-version-2", Some(_)) if number == 0 => refused(16),
        ("write-place-of-the-withdrawn-line", Some((place, _))) if number == 16 => {
            Written { place, ..right }
        }
        ("write-counts-when-refused", _) if number == 10 => {
            Written { bytes: needed as i64, ..right }
        }
        ("write-room-for-14-bytes-a-line", _) if number == 0 && places < longest => refused(10),
        _ => right,
    }
}

/// Spoils a file of so many bytes that is written rightly.
fn spoil(book: Lent, file: &mut [u8], bytes: usize) {
    let (held, after) = file[HEAD_BYTES..].split_at_mut(HELD_BYTES * book.held.len() / HELD);
    let line_bytes = book.limits().line_bytes;
    let lines = after.chunks_exact_mut(line_bytes).take(book.lines.len() / LINE);
    match fault() {
        "write-length-without-itself" => {
            file[..4].copy_from_slice(&(bytes as u32 - 4).to_be_bytes())
        }
        "write-height-of-4-bytes" => {
            held.chunks_exact_mut(HELD_BYTES).for_each(|entry| entry[2..6].fill(0))
        }
        "write-n-of-one-byte" => file[11] = 0,
        "write-from-of-one-byte" => lines.for_each(|line| line[0] = 0),
        "write-difference-little-endian" => lines.for_each(|line| line[4..8].reverse()),
        "write-standing-before-class" => lines.for_each(|line| line[12..].reverse()),
        "write-a-byte-past-the-file" if bytes < file.len() => file[bytes] = 0,
        "write-clears-the-rest" => file[bytes..].fill(0),
        _ => {}
    }
}
