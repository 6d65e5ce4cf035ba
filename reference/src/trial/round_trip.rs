//! "Reading what was written gives the same book, and writing what was read gives the same bytes."

use super::call::{Ask, Call, Given, Outcome};
use super::Book;
use crate::*;

/// The way back from what a call has done: of a book that was read its writing, of a file that was written its
/// reading, with just the places that are needed. There is none from a refusal or from any other call.
pub fn way_back(after: &Outcome) -> Option<Call> {
    match (&after.given, &after.buffers[..]) {
        (&Given::Read(answer), [held, lines]) => {
            let book = book_of(answer, held.numbers(), lines.numbers())?;
            Some(Call::Ask { book, ask: Ask::Write { room: 0 } })
        }
        (&Given::Written(Written { number: 0, bytes, .. }), [.., file]) => {
            let file = file.bytes().get(..bytes as usize)?.to_vec();
            Some(Call::Read { file, held_room: 0, lines_room: 0 })
        }
        _ => None,
    }
}

/// The book that was read into these buffers; none if it was refused or is longer than they are.
pub fn book_of(answer: ReadAnswer, held: &[i64], lines: &[i64]) -> Option<Book> {
    let ReadAnswer { number, version, b, t, h, n, .. } = answer;
    let places = |entries: i64, numbers: usize| usize::try_from(entries).ok()?.checked_mul(numbers);
    let (held, lines) = (held.get(..places(h, HELD)?)?, lines.get(..places(n, LINE)?)?);
    (number == 0).then(|| Book::of(Lent { version, b, t, held, lines }))
}

/// Whether the way back from a call has led to the book or the file that the call was lent.
pub fn is_back(call: &Call, after: &Outcome) -> bool {
    match (call, way_back(after)) {
        (Call::Ask { book, .. }, Some(Call::Ask { book: back, .. })) => *book == back,
        (Call::Read { file, .. }, Some(Call::Read { file: back, .. })) => *file == back,
        _ => false,
    }
}
