//! The refusals of document 01's table and of document 02: each number, its place, and which one is given where
//! several apply.

use reference::trial::call::own_report;
use reference::trial::damage::NO_VERSIONS;
use reference::trial::random::Random;
use reference::trial::shapes::{self, edge_book, Shape};
use reference::trial::Book;
use reference::*;

/// Three marks in a ring, and a fourth line that is withdrawn; mark 2 held.
fn ring() -> Book {
    #[rustfmt::skip]
    let lines = vec![
        1, 2,  1000, 100, 1, -1,
        2, 3, -2000, 100, 1, -1,
        3, 1,  1500, 100, 1, -1,
        1, 3,     0, 100, 0, -1,
    ];
    Book { version: 1, b: 3, t: 10, held: vec![2, 50_000], lines }
}

/// The same in version 2, the lines of classes 1 to 4.
fn classed_ring() -> Book {
    ring().classed(|i| i as i64 + 1)
}

fn survey(book: &Book) -> (i64, i64) {
    let mut rows = [9; 15];
    let answer = Reference::new().survey(book.lent(), &mut rows);
    if answer.number != 0 {
        assert_eq!((answer.rows, answer.pieces), (0, 0));
        assert_eq!(rows, [9; 15]);
    }
    (answer.number, answer.place)
}

/// The refusal after a change of a book.
fn refused(mut book: Book, change: impl FnOnce(&mut Book)) -> (i64, i64) {
    change(&mut book);
    survey(&book)
}

/// The refusal after a change of the ring.
fn changed(change: impl FnOnce(&mut Book)) -> (i64, i64) {
    refused(ring(), change)
}

/// The refusal after a change of the ring in version 2.
fn changed_classed(change: impl FnOnce(&mut Book)) -> (i64, i64) {
    refused(classed_ring(), change)
}

fn read(file: &[u8]) -> (i64, i64) {
    let (mut held, mut lines) = ([9; 2], [9; 24]);
    let answer = Reference::new().read(file, &mut held, &mut lines);
    if answer.number != 0 {
        let ReadAnswer { number, place, .. } = answer;
        assert_eq!(answer, ReadAnswer { number, place, ..ReadAnswer::default() });
        assert_eq!((held, lines), ([9; 2], [9; 24]));
    }
    (answer.number, answer.place)
}

/// The refusal after changes of bytes of a book's file.
fn refused_file(book: Book, changes: &[(usize, u8)]) -> (i64, i64) {
    let mut file = book.file();
    for &(at, byte) in changes {
        file[at] = byte;
    }
    read(&file)
}

/// The refusal after changes of bytes of the ring's file.
fn changed_file(changes: &[(usize, u8)]) -> (i64, i64) {
    refused_file(ring(), changes)
}

#[test]
fn a_good_ring() {
    for book in [ring(), classed_ring()] {
        assert_eq!(survey(&book), (0, 0));
        assert_eq!(read(&book.file()), (0, 0));
    }
}

#[test]
fn files() {
    let file = ring().file();
    assert_eq!(file.len(), 13 + 10 + 4 * 12);
    assert_eq!(read(&[]), (1, 0));
    assert_eq!(read(&file[..12]), (1, 0));
    assert_eq!(read(&file[..13]), (2, 0));
    assert_eq!(changed_file(&[(0, 1)]), (2, 0));
    for version in [0, 3, 129, 255] {
        assert_eq!(changed_file(&[(4, version)]), (3, 0));
        assert_eq!(changed_file(&[(4, version), (3, 70)]), (2, 0));
        assert_eq!(changed_file(&[(4, version), (6, 0)]), (3, 0));
    }
    assert_eq!(changed_file(&[(6, 0)]), (4, 0), "t = 0");
    assert_eq!(changed_file(&[(8, 0)]), (4, 0), "b = 0");
    assert_eq!(changed_file(&[(7, 1), (8, 1)]), (4, 0), "b = 257");
    assert_eq!(changed_file(&[(9, 1), (10, 1)]), (4, 0), "h = 257, before 5");
    assert_eq!(changed_file(&[(11, 2), (12, 1)]), (4, 0), "n = 513, before 5");
    assert_eq!(changed_file(&[(10, 2)]), (5, 0));
    assert_eq!(changed_file(&[(10, 2), (14, 9)]), (5, 0));
    assert_eq!(changed_file(&[(14, 4)]), (6, 1));
    assert_eq!(changed_file(&[(15, 128)]), (6, 1));
    assert_eq!(changed_file(&[(14, 4), (24, 9)]), (6, 1));
    assert_eq!(changed_file(&[(24, 0)]), (7, 1));
    assert_eq!(changed_file(&[(38, 2), (50, 9)]), (7, 2), "ends equal");
    assert_eq!(changed_file(&[(27, 128)]), (7, 1), "difference far below");
    assert_eq!(changed_file(&[(34, 9)]), (7, 1), "length 9");
}

#[test]
fn files_of_version_2() {
    let changed_file = |changes: &[(usize, u8)]| refused_file(classed_ring(), changes);
    assert_eq!(classed_ring().file().len(), 13 + 10 + 4 * 14);
    assert_eq!(changed_file(&[(4, 3)]), (3, 0));
    assert_eq!(changed_file(&[(6, 1)]), (4, 0), "t = 1");
    assert_eq!(changed_file(&[(5, 1)]), (4, 0), "t = 256");
    assert_eq!(changed_file(&[(6, 1), (10, 2)]), (4, 0), "before 5");
    assert_eq!(changed_file(&[(12, 3)]), (5, 0));
    assert_eq!(changed_file(&[(14, 4), (35, 5)]), (6, 1), "before 7");
    // The 13th byte of a line is its class, the 14th its standing.
    for byte in [5, 6, 128, 254, 255] {
        assert_eq!(changed_file(&[(35, byte)]), (7, 1));
        assert_eq!(changed_file(&[(77, byte)]), (7, 4), "withdrawn");
    }
    for byte in [2, 3, 128, 255] {
        assert_eq!(changed_file(&[(36, byte)]), (7, 1));
        assert_eq!(changed_file(&[(50, byte), (63, 5)]), (7, 2), "the first of two");
    }
    assert_eq!(changed_file(&[(35, 0), (36, 0), (49, 4), (78, 1)]), (0, 0));
}

/// A file's lines have 12 or 14 bytes; only without lines does one version look like the other.
#[test]
fn files_of_the_other_version() {
    let (one, two) = ([(4, 1), (6, 10)], [(4, 2), (6, 0)]);
    assert_eq!(refused_file(ring(), &two), (5, 0));
    assert_eq!(refused_file(ring(), &two[..1]), (4, 0), "t is not 0");
    assert_eq!(refused_file(classed_ring(), &one), (5, 0));
    assert_eq!(refused_file(classed_ring(), &one[..1]), (4, 0), "t is 0");
    let without_lines = |mut book: Book| {
        book.lines.clear();
        book
    };
    assert_eq!(refused_file(without_lines(ring()), &two), (0, 0));
    assert_eq!(refused_file(without_lines(classed_ring()), &one), (0, 0));
    assert_eq!(refused_file(without_lines(ring()), &two[..1]), (4, 0));
    assert_eq!(refused_file(without_lines(classed_ring()), &one[..1]), (4, 0));
    // Seven lines of 12 bytes are as long as six of 14.
    let mut seven = ring();
    seven.lines = [1, 2, 0, 1000, 1, -1].repeat(7);
    assert_eq!(refused_file(seven, &[(4, 2), (6, 0), (12, 6)]), (7, 2));
}

#[test]
fn files_into_short_buffers() {
    let file = ring().file();
    for (held, lines) in [(2, 23), (1, 24), (0, 0)] {
        let (mut held, mut lines) = (vec![9; held], vec![9; lines]);
        let answer = Reference::new().read(&file, &mut held, &mut lines);
        assert_eq!(answer, ReadAnswer { number: 10, ..ReadAnswer::default() });
        assert!(held.iter().chain(&lines).all(|&x| x == 9));
    }
    let mut wrong = file;
    wrong[24] = 0;
    assert_eq!(Reference::new().read(&wrong, &mut [], &mut []).number, 7);
}

/// The number and place that the writer answers, lent so many places; a refusal writes nothing.
fn write(book: &Book, places: usize) -> (i64, i64) {
    let mut file = vec![9; places];
    let answer = Reference::new().write(book.lent(), &mut file);
    if answer.number != 0 {
        assert_eq!(answer.bytes, 0);
        assert!(file.iter().all(|&byte| byte == 9));
    }
    (answer.number, answer.place)
}

/// 3, 4, 6, 7, 16 and 10, in this order: each time one fault is mended and the next is given.
#[test]
fn writes_refused() {
    let mut book = ring();
    (book.version, book.t, book.held[0], book.lines[9]) = (3, 0, 4, 9);
    for places in [0, 12, 70, 71, 100] {
        let mut book = book.clone();
        assert_eq!(write(&book, places), (3, 0));
        book.version = 1;
        assert_eq!(write(&book, places), (4, 0));
        book.t = 10;
        assert_eq!(write(&book, places), (6, 1));
        book.held[0] = 2;
        assert_eq!(write(&book, places), (7, 2));
        book.lines[9] = 100;
        assert_eq!(book, ring());
        assert_eq!(write(&book, places), (16, 0));
        book.lines[22] = 1;
        assert_eq!(write(&book, places), if places < 71 { (10, 0) } else { (0, 0) });
    }
}

#[test]
fn a_withdrawn_line_is_written_in_version_2_alone() {
    for line in 0..4 {
        let mut book = ring();
        book.lines[22] = 1;
        assert_eq!(write(&book, 71), (0, 0));
        book.lines[LINE * line + 4] = 0;
        assert_eq!(write(&book, 71), (16, 0));
        assert_eq!(write(&book, 70), (16, 0), "before 10");
        book = book.classed(|i| i as i64);
        assert_eq!(write(&book, 79), (0, 0));
        assert_eq!(write(&book, 78), (10, 0));
        book.lines[10] = 2;
        assert_eq!(write(&book, 79), (7, 2));
    }
    assert_eq!(write(&Book { lines: [1, 2, 0, 10, 0, -1].repeat(512), ..ring() }, 9741), (16, 0));
}

#[test]
fn files_too_short() {
    let mut standing = ring();
    standing.lines[22] = 1;
    let none = Book { held: vec![], lines: vec![], ..ring() };
    let none_classed = none.clone().classed(|_| 0);
    let books = [(standing, 71), (classed_ring(), 79), (none, 13), (none_classed, 13)];
    for (book, bytes) in books {
        for places in [0, 1, 4, 12, bytes - 1] {
            assert_eq!(write(&book, places), (10, 0), "{places} of {bytes}");
        }
        let mut file = vec![9; bytes + 2];
        let written = Reference::new().write(book.lent(), &mut file);
        assert_eq!(written, Written { number: 0, place: 0, bytes: bytes as i64 });
        assert_eq!(file, [book.file(), vec![9, 9]].concat());
        assert_eq!(write(&book, bytes), (0, 0));
    }
}

#[test]
fn limits_of_the_book() {
    for b in [0, -1, 257, i64::MIN, i64::MAX] {
        assert_eq!(changed(|book| book.b = b), (4, 0));
    }
    for t in [0, -1, 1001, i64::MIN, i64::MAX] {
        assert_eq!(changed(|book| book.t = t), (4, 0));
    }
    assert_eq!(changed(|book| book.t = 1000), (0, 0));
    for t in [1, 120, -1, 1000, i64::MIN, i64::MAX] {
        assert_eq!(changed_classed(|book| book.t = t), (4, 0));
    }
    assert_eq!(changed(|book| book.lines.truncate(23)), (4, 0));
    assert_eq!(changed(|book| book.lines.push(1)), (4, 0));
    assert_eq!(changed(|book| book.held.push(1)), (4, 0));
    assert_eq!(changed(|book| book.lines = [1, 2, 0, 10, 0, -1].repeat(513)), (4, 0));
    assert_eq!(changed(|book| book.lines = [1, 2, 0, 10, 0, -1].repeat(512)), (0, 0));
    assert_eq!(changed_classed(|book| book.lines = [1, 2, 0, 10, 0, 4].repeat(512)), (0, 0));
    for book in [ring(), classed_ring()] {
        assert_eq!(refused(book, |book| book.lines.clear()), (0, 0), "no lines");
    }
    assert_eq!(changed(|book| book.held = [1, 0].repeat(257)), (4, 0));
    assert_eq!(changed(|book| book.held = [1, 0].repeat(256)), (6, 2));
}

#[test]
fn held_entries() {
    for mark in [0, 4, -1, i64::MIN, i64::MAX] {
        assert_eq!(changed(|book| book.held.extend([mark, 0])), (6, 2));
    }
    let most = 10_000_000_000;
    for height in [-most - 1, most + 1, i64::MIN, i64::MAX] {
        assert_eq!(changed(|book| book.held[1] = height), (6, 1));
    }
    assert_eq!(changed(|book| book.held.extend([1, most, 3, -most])), (0, 0));
    assert_eq!(changed(|book| book.held.extend([1, 0, 2, 0, 9, 0])), (6, 3));
    assert_eq!(changed(|book| book.held.extend([9, 0, 2, 0])), (6, 2));
}

#[test]
fn lines() {
    let wrong = [
        (0, [0, 4, i64::MIN, i64::MAX]),
        (1, [0, 4, i64::MIN, i64::MAX]),
        (2, [-100_000_001, 100_000_001, i64::MIN, i64::MAX]),
        (3, [9, 100_001, i64::MIN, i64::MAX]),
        (4, [-1, 2, i64::MIN, i64::MAX]),
    ];
    for (place, numbers) in wrong {
        for number in numbers {
            for book in [ring(), classed_ring()] {
                let put = |i| refused(book.clone(), |book| book.lines[LINE * i + place] = number);
                assert_eq!(put(1), (7, 2));
                assert_eq!(put(3), (7, 4), "withdrawn");
            }
        }
    }
    assert_eq!(changed(|book| book.lines[6] = 3), (7, 2), "ends equal");
    assert_eq!(changed(|book| book.lines[8] = -100_000_000), (0, 0));
    assert_eq!(changed(|book| book.lines[9] = 10), (0, 0));
    assert_eq!(changed(|book| book.lines[9] = 100_000), (0, 0));
}

#[test]
fn classes() {
    for class in [0, 1, 4, -2, i64::MIN, i64::MAX] {
        assert_eq!(changed(|book| book.lines[11] = class), (7, 2), "version 1");
        assert_eq!(changed(|book| book.lines[23] = class), (7, 4), "withdrawn");
    }
    for class in [-1, 5, 255, i64::MIN, i64::MAX] {
        assert_eq!(changed_classed(|book| book.lines[11] = class), (7, 2), "version 2");
        assert_eq!(changed_classed(|book| book.lines[23] = class), (7, 4), "withdrawn");
    }
    for class in 0..5 {
        assert_eq!(changed_classed(|book| book.lines[11] = class), (0, 0));
    }
    assert_eq!(changed(|book| (book.version, book.t) = (2, 0)), (7, 1), "no classes");
    assert_eq!(changed_classed(|book| (book.version, book.t) = (1, 120)), (7, 1));
}

#[test]
fn the_lowest_number() {
    assert_eq!(changed(|book| (book.version, book.t) = (3, 0)), (3, 0));
    assert_eq!(changed(|book| (book.t, book.held[0], book.lines[0]) = (0, 0, 0)), (4, 0));
    assert_eq!(changed(|book| (book.held[0], book.lines[0]) = (0, 0)), (6, 1));
    assert_eq!(changed(|book| (book.lines[21], book.lines[10]) = (0, 2)), (7, 2));
    assert_eq!(changed_classed(|book| (book.t, book.lines[5]) = (1, 5)), (4, 0));
    assert_eq!(changed_classed(|book| (book.held[0], book.lines[5]) = (0, 5)), (6, 1));
    assert_eq!(changed_classed(|book| (book.lines[17], book.lines[11]) = (5, 5)), (7, 2));
}

/// What every call but the reader answers to a lent book with nothing else good: the number and the place.
fn every_call(book: &Book) -> [(i64, i64); 10] {
    let mut reference = Reference::new();
    let (lent, none) = (book.lent(), &mut []);
    let write = reference.write(lent, &mut []);
    let survey = reference.survey(lent, none);
    let listing = reference.listing(lent, 0, none);
    let listings = reference.listings(lent, none);
    let not_checked = reference.not_checked(lent, none);
    let sketch = reference.sketch(lent, &mut [], &mut [], &mut [], none);
    let adjust = reference.adjust(lent, none);
    let rate = reference.rate(lent, &[0; MAX_MARKS + 1], 0);
    let mut corrected = book.clone();
    let rerun = reference.rerun(corrected.lent_mut(), none, 0, MAX_DIFFERENCE + 1);
    let withdraw = reference.withdraw(corrected.lent_mut(), none, 0);
    assert_eq!(&corrected, book);
    [
        (write.number, write.place),
        (survey.number, survey.place),
        (listing.number, listing.place),
        (listings.number, listings.place),
        (not_checked.number, not_checked.place),
        (sketch.number, sketch.place),
        (adjust.number, adjust.place),
        (rate.number, rate.place),
        (rerun.number, rerun.place),
        (withdraw.number, withdraw.place),
    ]
}

/// 3 comes before all else that is wrong, in every call that is told the version.
#[test]
fn versions() {
    for version in NO_VERSIONS {
        for book in [ring(), classed_ring()] {
            let book = Book { version, ..book };
            assert_eq!(every_call(&book), [(3, 0); 10]);
            let (held, lines) = (vec![0; 3], vec![9; 7]);
            let wrong = Book { b: 0, t: -1, held, lines, ..book };
            assert_eq!(every_call(&wrong), [(3, 0); 10]);
        }
    }
    for book in [Book { t: 0, ..ring() }, Book { t: 1, ..classed_ring() }] {
        assert_eq!(every_call(&book), [(4, 0); 10]);
    }
}

#[test]
fn listing_of_no_loop() {
    let book = ring();
    let mut out = [9; 3];
    for number in [0, 2, -1, i64::MIN, i64::MAX] {
        let listed = Reference::new().listing(book.lent(), number, &mut out);
        assert_eq!(listed, Listed { number: 8, place: 0, entries: 0 });
    }
    let short = Reference::new().listing(book.lent(), 1, &mut out[..2]);
    assert_eq!(short, Listed { number: 10, place: 0, entries: 0 });
    assert_eq!(Reference::new().listing(book.lent(), 2, &mut []).number, 8);
    assert_eq!(out, [9; 3]);
}

#[test]
fn longest_listings() {
    let book = shapes::longest_listings();
    let mut out = vec![9; MAX_LISTED];
    let short = Reference::new().listings(book.lent(), &mut out[1..]);
    assert_eq!(short, Listed { number: 10, place: 0, entries: 0 });
    assert!(out.iter().all(|&entry| entry == 9));
    let listed = Reference::new().listings(book.lent(), &mut out);
    assert_eq!(listed, Listed { number: 0, place: 0, entries: MAX_LISTED as i64 });
    assert_eq!(out[MAX_LISTED - 2..], [254, 255]);
}

/// The ring with a tail at mark 3: a spur of one line and a loop of three.
#[test]
fn sketches_refused() {
    let mut book = ring();
    book.b = 4;
    book.lines.extend([4, 3, 700, 60, 1, -1]);
    let sketch = |book: &Book, places: [usize; 4]| {
        let mut out = places.map(|places| vec![9; places]);
        let [links, spurs, loops, run] = &mut out;
        let answer = Reference::new().sketch(book.lent(), links, spurs, loops, run);
        if answer.number != 0 {
            assert_eq!([answer.links, answer.spurs, answer.loops, answer.run], [0; 4]);
            assert!(out.concat().iter().all(|&number| number == 9));
        }
        (answer.number, answer.place, out)
    };
    let refused = |book: &Book, places| (sketch(book, places).0, sketch(book, places).1);
    let wanted = [&[9][..], &[4, 3, 1, 60, 700, 9], &[3, 3, 3, 300, 500, 9], &[5, 1, 2, 3, 9]];
    assert_eq!(sketch(&book, [1, 6, 6, 5]), (0, 0, wanted.map(<[i64]>::to_vec)));
    assert_eq!(refused(&book, [0, 5, 5, 4]), (0, 0));
    for short in [[0, 4, 5, 4], [0, 5, 4, 4], [0, 5, 5, 3], [0, 0, 0, 0], [9, 9, 9, 3]] {
        assert_eq!(refused(&book, short), (10, 0));
    }
    book.lines.extend([4, 2, 0, 10, 1, -1, 4, 1, 0, 10, 1, -1]);
    assert_eq!(refused(&book, [30, 0, 0, 6]), (0, 0), "six links");
    assert_eq!(refused(&book, [29, 0, 0, 6]), (10, 0));
    book.lines[0] = 5;
    assert_eq!(refused(&book, [0; 4]), (7, 1), "before 10");
    book.held[0] = 5;
    assert_eq!(refused(&book, [0; 4]), (6, 1));
    book.t = 0;
    assert_eq!(refused(&book, [0; 4]), (4, 0));
    book.version = 0;
    assert_eq!(refused(&book, [0; 4]), (3, 0));
}

#[test]
fn outputs_too_short() {
    let mut book = ring();
    let mut reference = Reference::new();
    assert_eq!(reference.survey(book.lent(), &mut [9; 4]).number, 10);
    assert_eq!(reference.adjust(book.lent(), &mut [9; 2]).number, 10);
    assert_eq!(reference.listings(book.lent(), &mut [9; 2]).number, 10);
    let free = Lent { held: &[], ..book.lent() };
    assert_eq!(reference.adjust(free, &mut [9; 2]).number, 10, "before 11");
    book.lines[4] = 0;
    let mut out = [9; 2];
    assert_eq!(reference.not_checked(book.lent(), &mut out[..1]).number, 10);
    assert_eq!(out, [9; 2]);
    assert_eq!(reference.not_checked(book.lent(), &mut out).entries, 2);
    assert_eq!(out, [2, 3]);
}

/// The number with which both corrections are refused; nothing has changed.
fn corrections(book: &Book, report: &[i64], line: i64, difference: i64) -> (i64, i64) {
    let (mut corrected, mut kept) = (book.clone(), report.to_vec());
    let mut reference = Reference::new();
    let rerun = reference.rerun(corrected.lent_mut(), &mut kept, line, difference);
    if rerun.number != 0 {
        assert_eq!((&corrected, &kept[..]), (book, report));
    }
    (corrected, kept) = (book.clone(), report.to_vec());
    let withdraw = reference.withdraw(corrected.lent_mut(), &mut kept, line);
    if withdraw.number != 0 {
        assert_eq!((&corrected, &kept[..]), (book, report));
    }
    (rerun.number, withdraw.number)
}

#[test]
fn corrections_refused() {
    let book = ring();
    let report = own_report(&mut Reference::new(), &book);
    assert_eq!(corrections(&book, &report, 1, 7), (0, 0));
    for line in [0, 4, 5, -1, i64::MIN, i64::MAX] {
        assert_eq!(corrections(&book, &report, line, 7), (8, 8));
        assert_eq!(corrections(&book, &[], line, 7), (8, 8), "before 9");
    }
    for difference in [-100_000_001, 100_000_001, i64::MIN, i64::MAX] {
        assert_eq!(corrections(&book, &report, 1, difference), (4, 0));
        assert_eq!(corrections(&book, &report, 0, difference), (4, 8));
    }
    assert_eq!(corrections(&book, &report[..4], 1, 7), (9, 9));
    assert_eq!(corrections(&book, &[], 1, 7), (9, 9));
    for place in 0..5 {
        let mut wrong = report.clone();
        wrong[place] += 1;
        assert_eq!(corrections(&book, &wrong, 1, 7), (9, 9));
    }
    let longer = [&report[..], &[1, 2, 3]].concat();
    assert_eq!(corrections(&book, &longer, 1, 7), (0, 0));
    let mut faulty = book.clone();
    faulty.held[0] = 0;
    assert_eq!(corrections(&faulty, &report, 1, i64::MAX), (4, 6), "4 before 6");
    faulty.version = 3;
    assert_eq!(corrections(&faulty, &report, 1, i64::MAX), (3, 3), "3 before 4");
}

#[test]
fn a_piece_without_held_marks() {
    let mut book = ring();
    book.b = 6;
    book.lines.extend([5, 4, 0, 10, 1, -1]);
    let adjust = |held: &[i64]| {
        let mut heights = [9; 6];
        let answer = Reference::new().adjust(Lent { held, ..book.lent() }, &mut heights);
        (answer.number, answer.place)
    };
    assert_eq!(adjust(&[]), (11, 1));
    assert_eq!(adjust(&[3, 0]), (11, 4));
    assert_eq!(adjust(&[3, 0, 6, 0]), (11, 4));
    assert_eq!(adjust(&[5, 0, 3, 0]), (11, 6));
    assert_eq!(adjust(&[5, 0, 3, 0, 6, 0]), (0, 0));
}

#[test]
fn sweeps_without_end() {
    let mut lines = vec![];
    for (from, to) in Shape::ring(256).pairs {
        lines.extend([from, to, 100_000_000, 1000, 1, -1]);
    }
    let mut heights = [9; 256];
    let book = Book { version: 1, b: 256, t: 1, held: vec![1, 0], lines };
    let answer = Reference::new().adjust(book.lent(), &mut heights);
    assert_eq!(answer, Adjusted { number: 12, place: 0, sweeps: 0 });
    assert_eq!(heights, [9; 256]);
}

#[test]
fn no_free_mark_is_one_sweep() {
    let mut heights = [9; 3];
    let book = Book { version: 1, b: 2, t: 1, held: vec![2, 5, 1, 6], lines: vec![] };
    let answer = Reference::new().adjust(book.lent(), &mut heights);
    assert_eq!(answer, Adjusted { number: 0, place: 0, sweeps: 1 });
    assert_eq!(heights, [6, 5, 9]);
}

#[test]
fn halves_go_toward_zero() {
    for (difference, height) in [(1, 0), (-1, 0), (3, 1), (-3, -1)] {
        // The free mark starts at 0 by the tree line, and the other says difference: g/D is half of it.
        let lines = vec![1, 2, 0, 1000, 1, -1, 1, 2, difference, 1000, 1, -1];
        let mut heights = [9; 2];
        let book = Book { version: 1, b: 2, t: 1, held: vec![1, 0], lines };
        let answer = Reference::new().adjust(book.lent(), &mut heights);
        assert_eq!((answer.number, heights), (0, [0, height]));
    }
}

#[test]
fn rates_refused() {
    let book = ring();
    let most = 50_000_000_000;
    let rate = |heights: &[i64], line| Reference::new().rate(book.lent(), heights, line);
    let refused = |number, place| Rated { number, place, ..Rated::default() };
    assert_eq!(rate(&[0, 0], 1), refused(4, 0));
    assert_eq!(rate(&[0; 4], 1), refused(4, 0));
    for line in [0, 5, -1, i64::MIN, i64::MAX] {
        assert_eq!(rate(&[most + 1; 3], line), refused(8, 0), "8 before 13");
    }
    assert_eq!(rate(&[0, most + 1, i64::MIN], 1), refused(13, 2));
    assert_eq!(rate(&[0, 0, -most - 1], 4), refused(13, 3), "before a withdrawn line");
    let withdrawn = Rated { line: 4, withdrawn: 1, ..Rated::default() };
    assert_eq!(rate(&[0, most, -most], 4), withdrawn);
    let correction = -2 * most + 2000;
    let extreme =
        Rated { line: 2, correction, rate: correction as f64 / 100.0, ..Rated::default() };
    assert_eq!(rate(&[0, most, -most], 2), extreme);
    let wrong_b = Lent { b: i64::MAX, ..book.lent() };
    assert_eq!(Reference::new().rate(wrong_b, &[], 1), refused(4, 0));
    let no_version = Lent { version: 0, ..book.lent() };
    assert_eq!(Reference::new().rate(no_version, &[0; 4], 1), refused(3, 0), "3 before 4");
}

/// A number that a careless caller might lend.
fn any_number(random: &mut Random) -> i64 {
    match random.below(4) {
        0 => random.pick(&[i64::MIN, i64::MAX, 0, -1, 256, 257, 512, 513]),
        1 => random.within(0, 3),
        2 => random.within(-20, 200),
        _ => random.bits() as i64,
    }
}

fn any_numbers(random: &mut Random) -> Vec<i64> {
    let count = random.below(12);
    (0..count).map(|_| any_number(random)).collect()
}

/// Whatever is lent, the calls return; a wrapped sum or a bad index would stop this test.
#[test]
fn never_panics() {
    let mut random = Random::new(4);
    let random = &mut random;
    let mut reference = Reference::new();
    for _ in 0..50_000 {
        let Book { version, b, t, held, lines } = edge_book(random);
        let version = if random.once_in(2) { version } else { any_number(random) };
        let b = if random.once_in(2) { b } else { any_number(random) };
        let t = if random.once_in(2) { t } else { any_number(random) };
        let held = if random.once_in(2) { held } else { any_numbers(random) };
        let lines = if random.once_in(2) { any_numbers(random) } else { lines };
        let mut book = Book { version, b, t, held, lines };
        let (number, difference) = (any_number(random), any_number(random));
        let mut out = any_numbers(random);
        let file: Vec<u8> = (0..random.below(30)).map(|_| random.bits() as u8).collect();
        reference.report(&file);
        reference.sketch_text(&file);
        reference.read(&file, &mut any_numbers(random), &mut out);
        reference.write(book.lent(), &mut vec![0; random.below(100)]);
        reference.survey(book.lent(), &mut out);
        reference.listing(book.lent(), number, &mut out);
        reference.listings(book.lent(), &mut out);
        reference.not_checked(book.lent(), &mut out);
        let [mut links, mut spurs, mut loops] = [(); 3].map(|_| any_numbers(random));
        reference.sketch(book.lent(), &mut links, &mut spurs, &mut loops, &mut out);
        reference.rate(book.lent(), &out, number);
        reference.adjust(book.lent(), &mut out);
        reference.rerun(book.lent_mut(), &mut out, number, difference);
        reference.withdraw(book.lent_mut(), &mut out, number);
    }
}
