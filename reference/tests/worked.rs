//! Document 01's worked network and its cases (a) to (h), and the Memorandum's figure.

use reference::trial::Book;
use reference::*;

fn worked() -> Book {
    #[rustfmt::skip]
    let lines = vec![
        1, 3, 6_345_000, 1600, 1, -1,
        2, 3, 4_235_000, 2500, 1, -1,
        5, 2, 3_060_000, 1000, 1, -1,
        5, 1,   920_000, 4000, 1, -1,
        1, 4, 3_895_000, 1600, 1, -1,
        4, 3, 2_410_000, 1250, 1, -1,
        5, 4, 4_820_000, 2000, 1, -1,
    ];
    Book { version: 1, b: 5, t: 120, held: vec![1, 100_000_000], lines }
}

/// The book's report, with numbers after it that no call may touch.
fn fresh(book: &Book) -> Vec<i64> {
    let mut rows = vec![-7; 20];
    assert_eq!(Reference::new().survey(book.lent(), &mut rows).number, 0);
    rows
}

fn done(rows: i64, pieces: i64) -> Answer {
    Answer { number: 0, place: 0, rows, pieces }
}

fn report(book: &Book) -> String {
    String::from_utf8(Reference::new().report(&book.file())).unwrap()
}

#[test]
fn a_report() {
    assert_eq!(worked().file().len(), 13 + 10 + 12 * 7);
    assert_eq!(
        report(&worked()),
        "LEVEL BOOK 1\n\
         MARKS 5 LINES 7 PIECES 1 LOOPS 3\n\
         LOOP 1 LENGTH 4450 MISCLOSURE -40000 OVER: 6 -1 5\n\
         LOOP 2 LENGTH 7600 MISCLOSURE -5000 WITHIN: 4 5 -7\n\
         LOOP 3 LENGTH 6750 MISCLOSURE 65000 OVER: 3 2 -6 -7\n\
         NOT CHECKED 0:\n"
    );
    let rows = fresh(&worked());
    assert_eq!(rows[..16], [6, 3, 4450, -40000, 1, 4, 3, 7600, -5000, 0, 3, 4, 6750, 65000, 1, -7]);
}

#[test]
fn a_read() {
    let book = worked();
    let (mut held, mut lines) = ([9; 3], [9; 43]);
    let answer = Reference::new().read(&book.file(), &mut held, &mut lines);
    let want = ReadAnswer { version: 1, b: 5, t: 120, h: 1, n: 7, ..ReadAnswer::default() };
    assert_eq!(answer, want);
    assert_eq!(held[..], [&book.held[..], &[9]].concat());
    assert_eq!(lines[..], [&book.lines[..], &[9]].concat());
}

/// Byte by byte, and as in books/.
#[test]
fn a_write() {
    #[rustfmt::skip]
    let file = [
        0, 0, 0, 107, 1, 0, 120, 0, 5, 0, 1, 0, 7,
        0, 1, 0, 0, 0, 0, 5, 245, 225, 0,
        0, 1, 0, 3, 0,  96, 209,  40, 0, 0,  6,  64,
        0, 2, 0, 3, 0,  64, 158, 248, 0, 0,  9, 196,
        0, 5, 0, 2, 0,  46, 177,  32, 0, 0,  3, 232,
        0, 5, 0, 1, 0,  14,   9, 192, 0, 0, 15, 160,
        0, 1, 0, 4, 0,  59, 110, 216, 0, 0,  6,  64,
        0, 4, 0, 3, 0,  36, 198,  16, 0, 0,  4, 226,
        0, 5, 0, 4, 0,  73, 140,  32, 0, 0,  7, 208,
    ];
    assert_eq!(include_bytes!("../../books/worked.book"), &file);
    let mut written = [9; 108];
    let answer = Reference::new().write(worked().lent(), &mut written);
    assert_eq!(answer, Written { number: 0, place: 0, bytes: 107 });
    assert_eq!(written[..], [&file[..], &[9]].concat());
}

#[test]
fn b_tree() {
    assert_eq!(Reference::new().tree(worked().lent()), [1, 5, 7, 2]);
}

#[test]
fn c_rerun() {
    let (mut book, mut rows) = (worked(), fresh(&worked()));
    let answer = Reference::new().rerun(book.lent_mut(), &mut rows, 6, 2_428_000);
    assert_eq!(answer, done(3, 1));
    assert_eq!(rows[..16], [6, 3, 4450, -22000, 0, 4, 3, 7600, -5000, 0, 3, 4, 6750, 47000, 1, -7]);
    assert_eq!(fresh(&book), rows);
    let mut only_change = worked();
    only_change.lines[LINE * 5 + 2] = 2_428_000;
    assert_eq!(book, only_change);
}

#[test]
fn d_withdraw_closing_line() {
    let mut reference = Reference::new();
    let (mut book, mut rows) = (worked(), fresh(&worked()));
    let answer = reference.withdraw(book.lent_mut(), &mut rows, 6);
    assert_eq!(answer, done(2, 1));
    assert_eq!(rows[..16], [4, 3, 7600, -5000, 0, 3, 5, 8700, 25000, 0, 0, 0, 0, 0, 0, -7]);
    let mut out = [0; 9];
    let listed = reference.listing(book.lent(), 2, &mut out);
    assert_eq!(listed, Listed { number: 0, place: 0, entries: 5 });
    assert_eq!(out[..6], [3, 2, -1, 5, -7, 0]);
    assert_eq!(reference.withdraw(book.lent_mut(), &mut rows, 6).number, 8);
}

#[test]
fn e_not_checked() {
    let mut reference = Reference::new();
    let (mut book, mut rows) = (worked(), fresh(&worked()));
    let answer = reference.withdraw(book.lent_mut(), &mut rows, 3);
    assert_eq!(answer, done(2, 1));
    let mut out = [0; 3];
    let listed = reference.not_checked(book.lent(), &mut out);
    assert_eq!(listed, Listed { number: 0, place: 0, entries: 1 });
    assert_eq!(out, [2, 0, 0]);
}

#[test]
fn f_edge_of_tolerance() {
    let allowed = 40 * 40 * 1000;
    assert_eq!(verdict(allowed, 4000), 0);
    assert_eq!(verdict(allowed, -4000), 0);
    assert_eq!(verdict(allowed, 4001), 1);
    for (misclosure, want) in [(4000, 0), (-4000, 0), (4001, 1), (-4001, 1)] {
        let lines = vec![1, 2, misclosure, 400, 1, -1, 1, 2, 0, 600, 1, -1];
        let book = Book { version: 1, b: 2, t: 40, held: vec![], lines };
        let mut rows = [0; 5];
        Reference::new().survey(book.lent(), &mut rows);
        assert_eq!(rows, [2, 2, 1000, -misclosure, want]);
    }
}

#[test]
fn g_no_lines() {
    let mut rows = [9; 5];
    let book = Book { version: 1, b: 7, t: 1, held: vec![], lines: vec![] };
    assert_eq!(Reference::new().survey(book.lent(), &mut rows), done(0, 7));
    assert_eq!(rows, [9; 5]);
}

#[test]
fn h_rate() {
    let lines = vec![1, 2, 0, 2000, 1, -1];
    let book = Book { version: 1, b: 2, t: 1, held: vec![], lines };
    let want = Rated { line: 1, correction: 500, rate: 0.25, ..Rated::default() };
    assert_eq!(Reference::new().rate(book.lent(), &[0, 500], 1), want);
}

#[test]
fn adjusted_heights() {
    let mut heights = [0; 5];
    let adjusted = Reference::new().adjust(worked().lent(), &mut heights);
    assert_eq!((adjusted.number, adjusted.place), (0, 0));
    // Document 002's, in metres.
    let want = [100.0, 102.1235, 106.3358, 103.9072, 99.0726];
    for (height, want) in heights.into_iter().zip(want) {
        assert!((height as f64 / 1e6 - want).abs() < 0.0001, "{height} {want}");
    }
}

/// The tolerance of class 4 is 120, as t is: all stays as it is but the report's first line.
#[test]
fn every_line_of_class_4() {
    let classed = worked().classed(|_| 4);
    assert_eq!(classed.file().len(), 13 + 10 + 14 * 7);
    assert_eq!(report(&classed), report(&worked()).replace("LEVEL BOOK 1", "LEVEL BOOK 2"));
    assert_eq!(fresh(&classed), fresh(&worked()));
    let corrected = |mut book: Book| {
        let (mut reference, mut rows) = (Reference::new(), fresh(&book));
        assert_eq!(reference.rerun(book.lent_mut(), &mut rows, 6, 2_428_000), done(3, 1));
        let rerun = rows.clone();
        assert_eq!(reference.withdraw(book.lent_mut(), &mut rows, 3), done(2, 1));
        [rerun, rows]
    };
    assert_eq!(corrected(classed), corrected(worked()));
    // Class 3 allows 16,876 in loop 1, which stays over when line 6 has been run again.
    let [rerun, _] = corrected(worked().classed(|_| 3));
    assert_eq!(rerun[..5], [6, 3, 4450, -22000, 1]);
}

/// The Memorandum's six marks and seven equal links, A to F as 1 to 6: its two squares.
#[test]
fn two_squares_and_not_the_outer_ring() {
    let links = [[1, 2], [1, 3], [2, 4], [3, 4], [3, 5], [4, 6], [5, 6]];
    let lines = links.iter().flat_map(|&[from, to]| [from, to, 0, 1000, 1, -1]).collect();
    let book = Book { version: 1, b: 6, t: 1, held: vec![], lines };
    let mut reference = Reference::new();
    let mut rows = [0; 10];
    assert_eq!(reference.survey(book.lent(), &mut rows), done(2, 1));
    assert_eq!(rows, [4, 4, 4000, 0, 0, 7, 4, 4000, 0, 0]);
    let mut loops = [[0; 4]; 2];
    for (number, out) in (1..).zip(&mut loops) {
        assert_eq!(reference.listing(book.lent(), number, out).entries, 4);
    }
    assert_eq!(loops, [[4, -3, -1, 2], [7, -6, -4, 5]]);
}
