//! Request 06: a closed walk along standing lines is a sum of multiples of the reported loops, and its misclosure is the same sum
//! of the reported misclosures.

use reference::trial::random::Random;
use reference::trial::round_trip::book_of;
use reference::trial::shapes::{good_book, small_book};
use reference::trial::Book;
use reference::*;
use std::collections::VecDeque;

/// A walk as a loop is listed: its line numbers, negative where a line is run back.
type Walk = Vec<i64>;

/// Where a signed line is run from and to, and by how much it rises.
fn run(book: &Book, signed: i64) -> (i64, i64, i64) {
    let line = &book.lines[LINE * (signed.unsigned_abs() as usize - 1)..];
    if signed > 0 {
        (line[0], line[1], line[2])
    } else {
        (line[1], line[0], -line[2])
    }
}

/// The signed standing lines that leave a mark.
fn leaving(book: &Book, mark: i64) -> Vec<i64> {
    let standing =
        (1..=book.lines_count() as i64).filter(|&n| book.lines[LINE * (n as usize - 1) + 4] == 1);
    standing.flat_map(|n| [n, -n]).filter(|&n| run(book, n).0 == mark).collect()
}

/// A way with few lines between two marks of one piece.
fn way(book: &Book, from: i64, to: i64) -> Walk {
    let mut ways = vec![None; book.b as usize + 1];
    ways[from as usize] = Some(vec![]);
    let mut next = VecDeque::from([from]);
    while let Some(mark) = next.pop_front() {
        for line in leaving(book, mark) {
            let end = run(book, line).1;
            if ways[end as usize].is_none() {
                let mut longer: Walk = ways[mark as usize].clone().unwrap();
                longer.push(line);
                ways[end as usize] = Some(longer);
                next.push_back(end);
            }
        }
    }
    ways[to as usize].take().unwrap()
}

/// Out along lines taken by chance, which may be run again or back at once, and home.
fn closed_walk(random: &mut Random, book: &Book) -> Walk {
    let start = random.within(1, book.b);
    let (mut walk, mut mark) = (vec![], start);
    for _ in 0..random.below(16) {
        let lines = leaving(book, mark);
        if lines.is_empty() {
            break;
        }
        let line = random.pick(&lines);
        walk.push(line);
        mark = run(book, line).1;
    }
    walk.extend(way(book, mark, start));
    walk
}

/// The signed passes of a walk over each line, by its number.
fn passes(book: &Book, walk: &[i64]) -> Vec<i128> {
    let mut passes = vec![0; book.lines_count() + 1];
    for line in walk {
        passes[line.unsigned_abs() as usize] += i128::from(line.signum());
    }
    passes
}

/// What was reported of a book: of each loop its signed lines and its misclosure, the fourth number of its row.
fn reported(book: &Book, report: &[i64], rows: i64) -> Vec<(Walk, i64)> {
    let mut lines = vec![0; 65_792];
    assert_eq!(Reference::new().listings(book.lent(), &mut lines).number, 0);
    let mut lines = lines.into_iter();
    let rows = report.chunks(ROW).take(rows as usize);
    rows.map(|row| (lines.by_ref().take(row[1] as usize).collect(), row[3])).collect()
}

/// The multiples of the loops, the last one's first: how often the walk passes the closing line, less what later loops pass.
fn multiples(book: &Book, walk: &[i64], loops: &[(Walk, i64)]) -> Vec<i128> {
    let mut left = passes(book, walk);
    let mut multiples = vec![0; loops.len()];
    for (i, (lines, _)) in loops.iter().enumerate().rev() {
        multiples[i] = left[lines[0] as usize];
        for (left, own) in left.iter_mut().zip(passes(book, lines)) {
            *left -= multiples[i] * own;
        }
    }
    // Nothing is left over any line: the passes are the sum, withdrawn lines too.
    assert_eq!(left, vec![0; left.len()], "{walk:?} of {book:?}");
    multiples
}

/// The misclosure of a walk, which is the same sum of the reported misclosures.
fn misclosure(book: &Book, walk: &[i64], report: &[i64], rows: i64) -> i128 {
    let loops = reported(book, report, rows);
    let own: i128 = walk.iter().map(|&line| i128::from(run(book, line).2)).sum();
    let multiples = multiples(book, walk, &loops);
    let sum: i128 = multiples.iter().zip(&loops).map(|(k, (_, m))| k * i128::from(*m)).sum();
    assert_eq!(own, sum, "{walk:?} of {book:?}");
    own
}

fn surveyed(book: &Book) -> (Vec<i64>, i64) {
    let mut report = vec![7; ROW * book.lines_count()];
    let answer = Reference::new().survey(book.lent(), &mut report);
    assert_eq!(answer.number, 0);
    (report, answer.rows)
}

#[test]
fn any_closed_walk() {
    let mut random = Random::new(6);
    for round in 0..600 {
        let mut book =
            if round % 20 == 0 { good_book(&mut random) } else { small_book(&mut random) };
        let (mut report, mut rows) = surveyed(&book);
        for _ in 0..4 {
            for _ in 0..4 {
                let walk = closed_walk(&mut random, &book);
                misclosure(&book, &walk, &report, rows);
            }
            // After a correction the kept report has as many rows as the correction answered; a refused one changes nothing.
            let line = random.within(1, book.lines_count() as i64 + 1);
            let difference = random.within(-90_000, 90_000);
            let answer = if random.once_in(2) {
                Reference::new().withdraw(book.lent_mut(), &mut report, line)
            } else {
                Reference::new().rerun(book.lent_mut(), &mut report, line, difference)
            };
            if answer.number == 0 {
                rows = answer.rows;
            }
        }
    }
}

#[test]
fn all_loops_close() {
    let mut random = Random::new(7);
    for _ in 0..300 {
        let mut book = small_book(&mut random);
        let heights: Vec<i64> =
            (0..=book.b).map(|_| random.within(-1_000_000, 1_000_000)).collect();
        for line in book.lines.chunks_mut(LINE) {
            line[2] = heights[line[1] as usize] - heights[line[0] as usize];
        }
        let (report, rows) = surveyed(&book);
        assert!(report.chunks(ROW).take(rows as usize).all(|row| row[3] == 0));
        let walk = closed_walk(&mut random, &book);
        assert_eq!(misclosure(&book, &walk, &report, rows), 0);
    }
}

#[test]
fn walks_of_the_worked_network() {
    let (mut held, mut lines) = ([0; 2], [0; 7 * LINE]);
    let answer =
        Reference::new().read(include_bytes!("../../books/worked.book"), &mut held, &mut lines);
    let book = book_of(answer, &held, &lines).unwrap();
    let (report, rows) = surveyed(&book);
    let loops = reported(&book, &report, rows);
    let walks: [(&[i64], [i128; 3], i128); 4] = [
        (&[1, -2, -3, 4], [-1, 1, -1], -30_000),
        (&[], [0, 0, 0], 0),
        (&[1, -1], [0, 0, 0], 0),
        (&[6, -1, 5, 6, -1, 5], [2, 0, 0], -80_000),
    ];
    for (walk, own, sum) in walks {
        assert_eq!(multiples(&book, walk, &loops), own, "{walk:?}");
        assert_eq!(misclosure(&book, walk, &report, rows), sum, "{walk:?}");
    }
}
