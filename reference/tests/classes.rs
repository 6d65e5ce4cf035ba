//! Lines of different classes in one book: the verdict, version 2 files, and what does not look at the class.

use reference::trial::random::Random;
use reference::trial::shapes::{good_book, largest_book, Shape};
use reference::trial::Book;
use reference::*;

/// One loop of lines with these lengths and classes, two of them between two marks and more in a ring. Its
/// misclosure is the difference of its closing line.
fn one_loop(lines: &[(i64, i64)], misclosure: i64) -> Book {
    let marks = lines.len() as i64;
    let pairs = if marks == 2 { vec![(1, 2); 2] } else { Shape::ring(marks).pairs };
    let numbers = pairs.iter().zip(lines);
    let lines = numbers.flat_map(|(&(from, to), &(length, class))| [from, to, 0, length, 1, class]);
    let mut book = Book { version: 2, b: marks, t: 0, held: vec![], lines: lines.collect() };
    let closing = own_row(&book)[0] as usize;
    book.lines[LINE * (closing - 1) + 2] = misclosure;
    book
}

/// The only row of a book.
fn own_row(book: &Book) -> [i64; ROW] {
    let mut row = [9; ROW];
    assert_eq!(Reference::new().survey(book.lent(), &mut row).rows, 1, "{book:?}");
    row
}

/// The greatest misclosure within, of either sign, survey, re-run and report program alike.
fn is_the_most(lines: &[(i64, i64)], most: i64) {
    for (misclosure, verdict) in [(most, 0), (-most, 0), (most + 1, 1), (-most - 1, 1)] {
        let book = one_loop(lines, misclosure);
        let row = own_row(&book);
        let length: i64 = lines.iter().map(|&(length, _)| length).sum();
        assert_eq!(row[1..], [lines.len() as i64, length, misclosure, verdict], "{lines:?}");

        let (mut corrected, mut report) = (one_loop(lines, 0), own_row(&one_loop(lines, 0)));
        Reference::new().rerun(corrected.lent_mut(), &mut report, row[0], misclosure);
        assert_eq!((corrected, report), (book.clone(), row));

        let text = String::from_utf8(Reference::new().report(&book.file())).unwrap();
        let word = if verdict == 0 { "WITHIN" } else { "OVER" };
        assert!(text.starts_with("LEVEL BOOK 2\n"), "{text}");
        assert!(
            text.contains(&format!("LENGTH {length} MISCLOSURE {misclosure} {word}:")),
            "{text}"
        );
    }
}

#[test]
fn edges_of_the_allowable() {
    // 10 * (1,600 + 14,400) * 1,000 is 160,000,000, of which the root is 12,649.1.
    is_the_most(&[(1000, 0), (1000, 4)], 12_649);
    is_the_most(&[(1000, 4), (1000, 0)], 12_649);
    is_the_most(&[(1000, 0), (1000, 1), (1000, 2), (1000, 3), (1000, 4)], 16_881);
    // The larger of the length and 250 is taken line by line.
    is_the_most(&[(40, 0), (249, 1), (250, 2), (10, 3), (40, 4)], 8_440);
    // A whole number: 10 * (1,600 * 4,000 + 14,400 * 250) is 10,000 squared. Equal is within.
    is_the_most(&[(4000, 0), (250, 4)], 10_000);
    is_the_most(&[(4000, 0), (40, 4)], 10_000);
    is_the_most(&[(100_000, 4), (100_000, 4)], 169_705);
}

#[test]
fn each_class_alone() {
    for (class, most) in (0..).zip([4000, 5000, 6000, 8000, 12_000]) {
        is_the_most(&[(400, class), (600, class)], most);
    }
}

/// Of the class nothing is lost: "nothing else in the book changes".
#[test]
fn corrections_keep_the_class() {
    let book = one_loop(&[(1000, 0), (1000, 1), (1000, 2), (1000, 3), (1000, 4)], 700);
    for number in 1..=5 {
        let place = LINE * (number as usize - 1);
        let (mut corrected, mut report) = (book.clone(), own_row(&book));
        Reference::new().rerun(corrected.lent_mut(), &mut report, number, -55);
        assert_eq!(corrected.lines[place + 2..][..4], [-55, 1000, 1, number - 1]);
        Reference::new().withdraw(corrected.lent_mut(), &mut report, number);
        assert_eq!(corrected.lines[place + 2..][..4], [-55, 1000, 0, number - 1]);
        corrected.lines[place + 2] = book.lines[place + 2];
        corrected.lines[place + 4] = 1;
        assert_eq!(corrected, book);
    }
}

/// The answer to a file, and the book that was read.
fn read(file: &[u8]) -> (ReadAnswer, Book) {
    let (mut held, mut lines) = (vec![0; HELD * MAX_HELD], vec![0; LINE * MAX_LINES]);
    let answer = Reference::new().read(file, &mut held, &mut lines);
    held.truncate(HELD * answer.h as usize);
    lines.truncate(LINE * answer.n as usize);
    let ReadAnswer { version, b, t, .. } = answer;
    (answer, Book { version, b, t, held, lines })
}

#[test]
fn a_file_of_version_2() {
    #[rustfmt::skip]
    let file = [
        0, 0, 0, 51, 2, 0, 0, 0, 3, 0, 1, 0, 2,
        0, 3, 255, 255, 255, 255, 255, 255, 255, 254,
        0, 1, 0, 2, 255, 255, 255, 253, 0, 0, 3, 232, 4, 0,
        0, 2, 0, 3, 0, 0, 1, 0, 0, 1, 134, 160, 0, 1,
    ];
    let lines = vec![1, 2, -3, 1000, 0, 4, 2, 3, 256, 100_000, 1, 0];
    let book = Book { version: 2, b: 3, t: 0, held: vec![3, -2], lines };
    assert_eq!(book.file(), file);
    let answer = ReadAnswer { version: 2, b: 3, h: 1, n: 2, ..ReadAnswer::default() };
    assert_eq!(read(&file), (answer, book));
}

#[test]
fn no_lines() {
    let one = Book { version: 1, b: 4, t: 60, held: vec![], lines: vec![] };
    for book in [one.clone(), one.classed(|_| 0)] {
        let Book { version, b, t, .. } = book;
        let file = book.file();
        assert_eq!(file.len(), HEAD_BYTES);
        assert_eq!(read(&file), (ReadAnswer { version, b, t, ..ReadAnswer::default() }, book));
        let text =
            format!("LEVEL BOOK {version}\nMARKS 4 LINES 0 PIECES 4 LOOPS 0\nNOT CHECKED 0:\n");
        assert_eq!(Reference::new().report(&file), text.as_bytes());
    }
}

#[test]
fn the_largest_file() {
    let mut random = Random::new(7);
    for _ in 0..20 {
        let book = largest_book(&mut random).classed(|i| i as i64 % 5);
        let file = book.file();
        assert_eq!((file.len(), book.held_count(), book.lines_count()), (9741, 256, 512));
        let answer = ReadAnswer { version: 2, b: 256, h: 256, n: 512, ..ReadAnswer::default() };
        assert_eq!(read(&file), (answer, book));
    }
}

/// What all calls but the survey answer, and the survey's rows without their verdicts.
fn without_verdicts(book: &Book) -> (Vec<i64>, [Vec<i64>; 4], impl PartialEq + std::fmt::Debug) {
    let mut reference = Reference::new();
    let lent = book.lent();
    let [mut rows, mut links, mut spurs, mut loops] = [(); 4].map(|_| vec![0; ROW * MAX_LINES]);
    let [mut run, mut open, mut heights] = [(); 3].map(|_| vec![0; MAX_LINES]);
    let mut listed = vec![0; MAX_LISTED];
    let answers = (
        reference.survey(lent, &mut rows),
        reference.listings(lent, &mut listed),
        reference.not_checked(lent, &mut open),
        reference.sketch(lent, &mut links, &mut spurs, &mut loops, &mut run),
        reference.adjust(lent, &mut heights),
        reference.rate(lent, &heights[..book.b as usize], 1),
        reference.tree(lent),
    );
    rows.chunks_exact_mut(ROW).for_each(|row| row[4] = 0);
    (listed, [rows, [links, spurs, loops, run].concat(), open, heights], answers)
}

/// A class turns verdicts and nothing else; with the tolerance of every line's class as t, not even those.
#[test]
fn only_verdicts_look_at_the_class() {
    let mut random = Random::new(6);
    let mut turned = 0;
    for _ in 0..500 {
        let book = good_book(&mut random);
        let class = random.below(TOLERANCES.len());
        let classed = book.clone().classed(|_| random.below(TOLERANCES.len()) as i64);
        assert_eq!(without_verdicts(&book), without_verdicts(&classed), "{book:?}");

        let all_one = book.classed(|_| class as i64);
        let mut by_t = Book { version: 1, t: TOLERANCES[class], ..all_one.clone() };
        by_t.lines.chunks_exact_mut(LINE).for_each(|line| line[5] = NO_CLASS);
        let report = |book: &Book| {
            let mut rows = vec![0; ROW * MAX_LINES];
            (Reference::new().survey(book.lent(), &mut rows), rows)
        };
        assert_eq!(report(&all_one), report(&by_t), "{by_t:?}");
        turned += (report(&all_one) != report(&classed)) as usize;
    }
    assert!(turned > 20, "{turned} reports with turned verdicts");
}
