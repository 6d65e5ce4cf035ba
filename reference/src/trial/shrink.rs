//! The smallest call that still differs: by dropping lines, held entries and marks, withdrawing lines
//! and making numbers plain.

use super::call::{Ask, Call, Kept, Room};
use super::{file_counts, Book};
use crate::*;
use std::ops::Range;
use std::slice::from_mut;
use std::time::{Duration, Instant};

/// A call has no more outputs.
const MOST_OUTPUTS: usize = 4;

/// A way to make a call smaller.
enum Step {
    DropLines(Range<usize>),
    /// Lines, with as many loops before the one that is listed.
    DropLoops(Range<usize>),
    DropHeld(Range<usize>),
    Withdraw(usize),
    DropMark(i64),
    /// A number of a line made plain: its place among the six, and the plain number.
    Plain(usize, usize, i64),
    /// The lowest class that there is in the book's version.
    PlainClass(usize),
    PlainTolerance,
    PlainVersion,
    PlainReport,
    /// The room of an output, by its place among them.
    PlainRoom(usize),
    /// A height that is lent to a rate, and one of a held entry.
    PlainHeight(usize),
    PlainHeld(usize),
}

/// Makes a call smaller as long as it still differs, for at most twenty seconds.
pub fn shrink(call: Call, mut differs: impl FnMut(&Call) -> bool) -> Call {
    let end = Instant::now() + Duration::from_secs(20);
    let mut call = call;
    let mut again = true;
    while again {
        again = false;
        for step in steps(&call) {
            if Instant::now() > end {
                return call;
            }
            if let Some(smaller) = apply(&call, &step).filter(|smaller| differs(smaller)) {
                call = smaller;
                again = true;
            }
        }
    }
    call
}

/// Every step that may be tried, the largest first and, so that places stay good, from the end.
fn steps(call: &Call) -> Vec<Step> {
    let (marks, held, lines) = sizes(call);
    let mut steps = vec![Step::PlainReport, Step::PlainVersion];
    steps.extend((0..MOST_OUTPUTS).map(Step::PlainRoom));
    for range in ranges(lines) {
        steps.extend([Step::DropLines(range.clone()), Step::DropLoops(range)]);
    }
    steps.extend(ranges(held).into_iter().map(Step::DropHeld));
    steps.extend((0..lines).rev().map(Step::Withdraw));
    steps.extend((1..=marks).rev().map(Step::DropMark));
    for i in 0..lines {
        steps.extend([Step::Plain(i, 2, 0), Step::Plain(i, 3, 1000), Step::Plain(i, 3, 10)]);
        steps.push(Step::PlainClass(i));
    }
    steps.extend((0..marks as usize).map(Step::PlainHeight));
    steps.extend((0..held).map(Step::PlainHeld));
    steps.push(Step::PlainTolerance);
    steps
}

/// Halves, quarters and so on of a list, each from its end.
fn ranges(count: usize) -> Vec<Range<usize>> {
    let mut ranges = vec![];
    let mut size = count;
    while size > 0 {
        let mut end = count;
        while end > 0 {
            let begin = end.saturating_sub(size);
            ranges.push(begin..end);
            end = begin;
        }
        size /= 2;
    }
    ranges
}

/// Marks, held entries and lines of a call's book or file.
fn sizes(call: &Call) -> (i64, usize, usize) {
    match call {
        Call::Ask { book, .. } => {
            let marks = if book.b > MAX_MARKS as i64 { 0 } else { book.b.max(0) };
            (marks, book.held_count(), book.lines_count())
        }
        Call::Read { file, .. } | Call::Text { file, .. } => match file_counts(file) {
            Some((held, lines, _)) => (0, held, lines),
            None => (0, 0, 0),
        },
    }
}

fn apply(call: &Call, step: &Step) -> Option<Call> {
    match call {
        Call::Ask { book, ask } => {
            let (mut book, mut ask) = (book.clone(), ask.clone());
            apply_to_book(&mut book, &mut ask, step)?;
            Some(Call::Ask { book, ask })
        }
        Call::Read { file, held_room, lines_room } => {
            let file = apply_to_file(file, step)?;
            Some(Call::Read { file, held_room: *held_room, lines_room: *lines_room })
        }
        Call::Text { program, file } => {
            Some(Call::Text { program: *program, file: apply_to_file(file, step)? })
        }
    }
}

fn apply_to_book(book: &mut Book, ask: &mut Ask, step: &Step) -> Option<()> {
    let Version { t: tolerances, class: classes, .. } = book.limits();
    match step {
        Step::DropLines(range) => {
            if range.end > book.lines_count() {
                return None;
            }
            book.lines.drain(LINE * range.start..LINE * range.end);
            lower_line(ask, range);
        }
        Step::DropLoops(range) => {
            let Ask::Listing { number, .. } = ask else { return None };
            *number = number.checked_sub(range.len() as i64).filter(|&number| number > 0)?;
            return apply_to_book(book, ask, &Step::DropLines(range.clone()));
        }
        Step::DropHeld(range) => {
            if range.end > book.held_count() {
                return None;
            }
            book.held.drain(HELD * range.start..HELD * range.end);
        }
        Step::Withdraw(i) => change(book.lines.get_mut(LINE * i + 4)?, 0)?,
        Step::DropMark(mark) => drop_mark(book, ask, *mark)?,
        Step::Plain(i, place, plain) => {
            let number = book.lines.get_mut(LINE * i + place)?;
            // A length is not made plain twice.
            if *place == 3 && (*number == 10 || *number == 1000 && *plain != 10) {
                return None;
            }
            change(number, *plain)?;
        }
        Step::PlainClass(i) => change(book.lines.get_mut(LINE * i + 5)?, *classes.start())?,
        Step::PlainTolerance => change(&mut book.t, *tolerances.start())?,
        Step::PlainVersion => plain_version(book)?,
        Step::PlainReport => match ask {
            Ask::Rerun { kept, .. } | Ask::Withdraw { kept, .. } => plain_report(kept)?,
            _ => return None,
        },
        Step::PlainRoom(i) => plain_room(rooms(ask).get_mut(*i)?)?,
        Step::PlainHeight(mark) => match ask {
            Ask::Rate { heights, .. } => change(heights.get_mut(*mark)?, 0)?,
            _ => return None,
        },
        Step::PlainHeld(i) => change(book.held.get_mut(HELD * i + 1)?, 0)?,
    }
    Some(())
}

/// Version 1, with a tolerance for the whole book in the place of the classes.
fn plain_version(book: &mut Book) -> Option<()> {
    change(&mut book.version, 1)?;
    book.t = book.t.max(1);
    book.lines.chunks_exact_mut(LINE).for_each(|line| line[5] = NO_CLASS);
    Some(())
}

/// The book's own report, off in its last place if at all.
fn plain_report(kept: &mut Kept) -> Option<()> {
    if let Some((from_last, _)) = kept.off.as_mut().filter(|(from_last, _)| *from_last > 0) {
        *from_last = 0;
        return Some(());
    }
    kept.rows.take().map(|_| ())
}

/// Off by one place, or exact if it is so already.
fn plain_room(room: &mut Room) -> Option<()> {
    let off_by_one = room.signum();
    change(room, if *room == off_by_one { 0 } else { off_by_one })
}

/// The rooms of a call's outputs beyond the answer.
fn rooms(ask: &mut Ask) -> &mut [Room] {
    match ask {
        Ask::Survey { room } | Ask::Listings { room } | Ask::NotChecked { room } => from_mut(room),
        Ask::Write { room } | Ask::Listing { room, .. } | Ask::Adjust { room } => from_mut(room),
        Ask::Rerun { kept, .. } | Ask::Withdraw { kept, .. } => from_mut(&mut kept.beyond),
        Ask::Sketch { rooms } => rooms,
        Ask::Rate { .. } => &mut [],
    }
}

/// Sets a number, unless it is so already.
fn change(number: &mut i64, to: i64) -> Option<()> {
    if *number == to {
        return None;
    }
    *number = to;
    Some(())
}

/// The line that a call names keeps its meaning when lines before it are dropped.
fn lower_line(ask: &mut Ask, dropped: &Range<usize>) {
    if let Ask::Rerun { line, .. } | Ask::Withdraw { line, .. } | Ask::Rate { line, .. } = ask {
        if *line > dropped.end as i64 {
            *line -= dropped.len() as i64;
        }
    }
}

/// Takes a mark out with its held entry; its lines go to the mark before it, and higher marks are
/// numbered one lower.
fn drop_mark(book: &mut Book, ask: &mut Ask, mark: i64) -> Option<()> {
    if book.b < 2 || mark > book.b {
        return None;
    }
    book.b -= 1;
    let lower = |m: &mut i64| *m -= (*m > mark || *m > 1 && *m == mark) as i64;
    for line in book.lines.chunks_exact_mut(LINE) {
        lower(&mut line[0]);
        lower(&mut line[1]);
    }
    if let Some(entry) = book.held.chunks_exact(HELD).position(|entry| entry[0] == mark) {
        book.held.drain(HELD * entry..HELD * (entry + 1));
    }
    for entry in book.held.chunks_exact_mut(HELD) {
        lower(&mut entry[0]);
    }
    if let Ask::Rate { heights, .. } = ask {
        if mark as usize <= heights.len() {
            heights.remove(mark as usize - 1);
        }
    }
    Some(())
}

fn apply_to_file(file: &[u8], step: &Step) -> Option<Vec<u8>> {
    let (held, lines, version) = file_counts(file)?;
    let first_line = HEAD_BYTES + HELD_BYTES * held;
    let (range, first, size, count_at, count) = match step {
        Step::DropLines(range) => (range, first_line, version.line_bytes, 11, lines),
        Step::DropHeld(range) => (range, HEAD_BYTES, HELD_BYTES, 9, held),
        _ => return None,
    };
    if range.end > count {
        return None;
    }
    let mut file = file.to_vec();
    file.drain(first + size * range.start..first + size * range.end);
    let stated = u32::from_be_bytes([file[0], file[1], file[2], file[3]]);
    let stated = stated.wrapping_sub((size * range.len()) as u32);
    file[..4].copy_from_slice(&stated.to_be_bytes());
    let left = (count - range.len()) as u16;
    file[count_at..count_at + 2].copy_from_slice(&left.to_be_bytes());
    Some(file)
}
