//! Damaged books and files, and good ones among them.

use super::random::Random;
use super::shapes::good_book;
use super::{file_counts, Book};
use crate::*;
use std::ops::RangeInclusive;

/// Versions that there are not; the last four would be, cut to their last bytes.
pub const NO_VERSIONS: [i64; 10] =
    [0, 3, 255, -1, i64::MIN, i64::MAX, 257, 258, (1 << 32) + 1, (1 << 32) + 2];

/// A number outside its limits, most often by one.
fn outside(random: &mut Random, limits: RangeInclusive<i64>) -> i64 {
    let (low, high) = limits.into_inner();
    let near = random.within(1, 1000);
    let choices = [low - 1, high + 1, low - 1, high + 1, low - near, high + near];
    match random.below(4) {
        0 => random.pick(&[i64::MIN, i64::MAX, i64::MIN + 1, i64::MAX - 1, 1 << 32, -(1 << 32)]),
        _ => random.pick(&choices),
    }
}

/// Sees to it that there are a line and a held entry to damage.
fn furnish(book: &mut Book) {
    if book.held_count() == 0 {
        book.held = vec![1, 0];
    }
    if book.lines_count() == 0 {
        book.lines = vec![1, 2, 0, 1000, 1, *book.limits().class.start()];
    }
}

/// Puts a number outside its limit into a held entry, or holds its mark twice.
fn damage_held(random: &mut Random, book: &mut Book) {
    let count = book.held_count();
    let entry = HELD * random.below(count);
    match random.below(4) {
        0 => book.held[entry] = outside(random, 1..=book.b),
        1 => book.held[entry + 1] = outside(random, -MAX_HELD_HEIGHT..=MAX_HELD_HEIGHT),
        _ => {
            let mark = book.held[HELD * random.below(count)];
            let place = HELD * random.below(count + 1);
            book.held.splice(place..place, [mark, 0]);
        }
    }
}

/// Puts a number outside its limit into a line, or makes its ends equal.
fn damage_line(random: &mut Random, book: &mut Book) {
    let line = LINE * random.below(book.lines_count());
    match random.below(8) {
        0 => book.lines[line] = outside(random, 1..=book.b),
        1 => book.lines[line + 1] = outside(random, 1..=book.b),
        2 => book.lines[line + 1] = book.lines[line],
        3 => book.lines[line + 2] = outside(random, -MAX_DIFFERENCE..=MAX_DIFFERENCE),
        4 => book.lines[line + 3] = outside(random, MIN_LENGTH..=MAX_LENGTH),
        5 => book.lines[line + 4] = outside(random, 0..=1),
        _ => book.lines[line + 5] = outside(random, book.limits().class.clone()),
    }
}

/// The version that a book might be taken for.
fn other(version: &Version) -> &'static Version {
    match version.number {
        1 => &Version::TWO,
        _ => &Version::ONE,
    }
}

/// Makes the version one that there is not, at times with b outside too; or the other: as a rule with a t of that,
/// so that only the classes are wrong.
fn damage_version(random: &mut Random, book: &mut Book) {
    if random.once_in(2) {
        book.version = random.pick(&NO_VERSIONS);
        if random.once_in(4) {
            book.b = outside(random, 1..=MAX_MARKS as i64);
        }
        return;
    }
    let other = other(book.limits());
    book.version = other.number;
    if !random.once_in(4) {
        book.t = *other.t.start();
    }
}

/// Makes the book of no whole entries, or of one too many.
fn damage_counts(random: &mut Random, book: &mut Book) {
    match random.below(4) {
        0 => {
            let left = random.below(LINE - 1) + 1;
            book.lines.truncate(book.lines.len() - left);
        }
        1 => book.held.push(1),
        2 => {
            let line = book.lines[..LINE].to_vec();
            while book.lines_count() <= MAX_LINES {
                book.lines.extend_from_slice(&line);
            }
        }
        _ => {
            let first = book.held_count();
            book.held.extend((first..=MAX_HELD).flat_map(|i| [i as i64 + 1, 0]));
        }
    }
}

/// One fault.
fn damage_once(random: &mut Random, book: &mut Book) {
    match random.below(16) {
        0 => book.b = outside(random, 1..=MAX_MARKS as i64),
        1 => book.t = outside(random, book.limits().t.clone()),
        2 => damage_counts(random, book),
        3..=5 => damage_version(random, book),
        6..=9 => damage_held(random, book),
        _ => damage_line(random, book),
    }
}

/// One to three faults.
fn damage_book(random: &mut Random, book: &mut Book) {
    for _ in 0..random.pick(&[1, 1, 2, 3]) {
        furnish(book);
        if (1..=MAX_MARKS as i64).contains(&book.b) {
            damage_once(random, book);
        }
    }
}

/// A good book as a rule; else a damaged one.
pub fn any_book(random: &mut Random) -> Book {
    let mut book = good_book(random);
    if random.below(5) < 2 {
        damage_book(random, &mut book);
    }
    book
}

/// Writes two bytes of a file's head.
fn set16(file: &mut [u8], at: usize, number: u16) {
    if let Some(place) = file.get_mut(at..at + 2) {
        place.copy_from_slice(&number.to_be_bytes());
    }
}

/// States a total length.
fn state(file: &mut [u8], length: usize) {
    if let Some(place) = file.get_mut(..4) {
        place.copy_from_slice(&(length as u32).to_be_bytes());
    }
}

/// States the other version: as a rule with a t of that and, where the bytes of the lines are whole lines of
/// that too, with their count.
fn state_other_version(random: &mut Random, file: &mut [u8]) {
    let Some((_, lines, version)) = file_counts(file) else { return };
    let (other, bytes) = (other(version), version.line_bytes * lines);
    file[4] = other.number as u8;
    if !random.once_in(4) {
        set16(file, 5, *other.t.start() as u16);
    }
    if bytes.is_multiple_of(other.line_bytes) && random.once_in(2) {
        set16(file, 11, (bytes / other.line_bytes) as u16);
    }
}

/// Puts a byte outside its limit into the class or the standing of a line, where the file has them.
fn damage_last_bytes(random: &mut Random, file: &mut [u8]) {
    if let Some((held, lines @ 1.., Version { number: 2, line_bytes, .. })) = file_counts(file) {
        let line = HEAD_BYTES + HELD_BYTES * held + line_bytes * random.below(lines);
        match random.below(2) {
            0 => file[line + 12] = random.pick(&[5, 5, 6, 128, 255, 255]),
            _ => file[line + 13] = random.pick(&[2, 2, 3, 128, 255, 255]),
        }
    }
}

/// One fault of a file.
fn damage_file_once(random: &mut Random, file: &mut Vec<u8>) {
    let length = file.len();
    match random.below(14) {
        0 | 1 if length > 0 => {
            let part = random.pick(&[HEAD_BYTES, HEAD_BYTES, length]);
            let at = random.below(length.min(part));
            file[at] ^= 1 << random.below(8);
        }
        2 => file.truncate(random.below(length + 1)),
        3 => file.truncate(length - length.min(random.pick(&[1, 2, 10, 12, 14]))),
        4 => file.truncate(random.below(14)),
        5 => {
            let more = random.pick(&[1, 1, 2, 10, 12, 14, 40]);
            file.extend((0..more).map(|_| random.bits() as u8));
        }
        6 => {
            let stated = random.pick(&[0, 13, length + 1, length.wrapping_sub(1), length << 8]);
            state(file, stated);
        }
        7 if length > 4 => file[4] = random.pick(&[0, 1, 2, 3, 129, 130, 255]),
        8 | 9 => state_other_version(random, file),
        10 | 11 => damage_last_bytes(random, file),
        _ => {
            let at = random.pick(&[5, 7, 9, 11]);
            let number = random.pick(&[0, 1, 2, 255, 256, 257, 512, 513, 1000, 1001, 65_535]);
            set16(file, at, number);
        }
    }
}

/// One to three faults of a file; its stated length is often mended, so that later tests are reached.
fn damage_file(random: &mut Random, file: &mut Vec<u8>) {
    for _ in 0..random.pick(&[1, 1, 1, 2, 3]) {
        damage_file_once(random, file);
    }
    if random.once_in(2) {
        let length = file.len();
        state(file, length);
    }
}

/// Makes a file longer than any book, about as long as the programs read.
fn lengthen(random: &mut Random, file: &mut Vec<u8>) {
    let length = MAX_READ + random.below(3) - 1;
    file.resize(length, 0);
    let stated = random.pick(&[MAX_READ - 1, MAX_READ, MAX_READ + 1, length, 13]);
    state(file, stated);
}

/// One file of each kind: of a good book, of a damaged one, three of good ones damaged afterwards, one too long.
pub fn files(random: &mut Random) -> Vec<Vec<u8>> {
    let mut kinds = [0, 1, 2, 2, 2, 3];
    random.shuffle(&mut kinds);
    let mut file = |kind| {
        let mut book = good_book(random);
        if kind == 1 {
            damage_book(random, &mut book);
        }
        let mut file = book.file();
        match kind {
            2 => damage_file(random, &mut file),
            3 => lengthen(random, &mut file),
            _ => {}
        }
        file
    };
    kinds.map(&mut file).to_vec()
}
