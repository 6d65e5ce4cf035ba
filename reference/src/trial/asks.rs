//! What is asked of a book: every call once, with lent buffers good and bad.

use super::call::{own_report, Ask, Kept, Room};
use super::random::Random;
use super::shapes::good_book;
use super::Book;
use crate::*;

const EXTREMES: [i64; 4] = [i64::MIN, i64::MAX, -1, 0];

/// Exact as a rule; else short by one, by much or by all, or longer.
pub fn room(random: &mut Random) -> Room {
    match random.below(3) {
        0 => random.pick(&[-1, -1, -2, -5, -20, i64::MIN, 1, 3, 100]),
        1 => random.pick(&[1, 2, 5, 7]),
        _ => 0,
    }
}

/// The rooms of a sketch's four outputs: all exact, or one that is not, or each as it comes.
fn rooms(random: &mut Random) -> [Room; 4] {
    let mut rooms = [0; 4];
    match random.below(4) {
        0 => rooms.iter_mut().for_each(|one| *one = room(random)),
        1 => {}
        _ => rooms[random.below(4)] = random.pick(&[-1, -1, 1, 7]),
    }
    rooms
}

/// A line of the book as a rule, withdrawn ones too; else none.
fn line_number(random: &mut Random, book: &Book) -> i64 {
    let count = book.lines_count() as i64;
    match random.below(8) {
        0 => random.pick(&EXTREMES),
        1 => count + random.pick(&[0, 1]),
        _ => random.within(1, count.max(1)),
    }
}

/// A loop of the book as a rule; else none.
fn loop_number(random: &mut Random, rows: i64) -> i64 {
    match random.below(8) {
        0 => random.pick(&EXTREMES),
        1 | 2 => rows + random.pick(&[0, 0, 1]),
        _ => random.within(1, rows.max(1)),
    }
}

/// A new difference, now and then outside its limit.
pub fn new_difference(random: &mut Random) -> i64 {
    match random.below(12) {
        0 => random.pick(&[-MAX_DIFFERENCE - 1, MAX_DIFFERENCE + 1, i64::MIN, i64::MAX]),
        1 => random.pick(&[-MAX_DIFFERENCE, MAX_DIFFERENCE]),
        2..=6 => random.within(-5000, 5000),
        _ => random.within(-MAX_DIFFERENCE, MAX_DIFFERENCE),
    }
}

/// The book's own report as a rule, often with places after it; else a wrong one.
fn kept(random: &mut Random, reference: &mut Reference, book: &Book) -> Kept {
    let fresh = Kept::default();
    match random.below(12) {
        0 => Kept { beyond: random.pick(&[-1, -1, -5, -5, -10, i64::MIN]), ..fresh },
        1 => Kept { off: Some((0, random.pick(&[-1, 1]))), ..fresh },
        2 => {
            let place = random.below(ROW * book.lines_count());
            Kept { off: Some((place, random.pick(&[-1, 1, i64::MAX]))), ..fresh }
        }
        3 => {
            let other = good_book(random);
            Kept { rows: Some(own_report(reference, &other)), beyond: room(random), ..fresh }
        }
        4..=7 => Kept { beyond: random.pick(&[1, 5, 12]), ..fresh },
        _ => fresh,
    }
}

/// Heights for a rate: the adjusted ones or any, one outside its limit or not b in number at times.
fn lent_heights(random: &mut Random, reference: &mut Reference, book: &Book) -> Vec<i64> {
    let count = book.b.clamp(0, MAX_MARKS as i64 + 1) as usize;
    let mut heights = vec![0; count];
    let adjusted = random.once_in(2) && reference.adjust(book.lent(), &mut heights).number == 0;
    if !adjusted {
        let most = random.pick(&[1000, MAX_HELD_HEIGHT, MAX_HEIGHT]);
        heights.iter_mut().for_each(|height| *height = random.within(-most, most));
    }
    match random.below(10) {
        0 => heights.truncate(count.saturating_sub(random.pick(&[1, 1, 300]))),
        1 => heights.push(0),
        2 | 3 if count > 0 => {
            let wrong = [-MAX_HEIGHT - 1, MAX_HEIGHT + 1, i64::MIN, i64::MAX];
            for _ in 0..random.pick(&[1, 2]) {
                heights[random.below(count)] = random.pick(&wrong);
            }
        }
        4 if count > 0 => heights[random.below(count)] = random.pick(&[-MAX_HEIGHT, MAX_HEIGHT]),
        _ => {}
    }
    heights
}

/// Every call on a book, the listing of any loop and of the last. Where there is no such version, the new
/// difference and the heights are often wrong too: 3 comes before 4.
pub fn every_ask(random: &mut Random, reference: &mut Reference, book: &Book) -> Vec<Ask> {
    let rows = (own_report(reference, book).len() / ROW) as i64;
    let line = line_number(random, book);
    let mut difference = new_difference(random);
    let mut heights = lent_heights(random, reference, book);
    if Version::of(book.version).is_none() && random.once_in(2) {
        difference = MAX_DIFFERENCE + 1;
        heights.push(0);
    }
    vec![
        Ask::Write { room: room(random) },
        Ask::Survey { room: room(random) },
        Ask::Listing { number: loop_number(random, rows), room: room(random) },
        Ask::Listing { number: rows, room: room(random) },
        Ask::Listings { room: room(random) },
        Ask::NotChecked { room: room(random) },
        Ask::Sketch { rooms: rooms(random) },
        Ask::Rerun { kept: kept(random, reference, book), line, difference },
        Ask::Withdraw { kept: kept(random, reference, book), line: line_number(random, book) },
        Ask::Adjust { room: room(random) },
        Ask::Rate { heights, line },
    ]
}
