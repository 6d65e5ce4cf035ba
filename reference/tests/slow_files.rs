//! Books and files once more, byte by byte and slowly: the table of refusals, the reader and the writer.

use reference::trial::asks::room;
use reference::trial::damage::{any_book, files};
use reference::trial::random::Random;
use reference::trial::Book;
use reference::*;

fn outside(number: i64, low: i64, high: i64) -> bool {
    number < low || number > high
}

/// The refusal of a lent book by the table: its number and place, or zeros.
fn slow_refusal(book: &Book) -> (i64, i64) {
    let Book { version, b, t, ref held, ref lines } = *book;
    if version != 1 && version != 2 {
        return (3, 0);
    }
    let tolerance = if version == 1 { outside(t, 1, 1000) } else { t != 0 };
    let whole = held.len() % 2 == 0 && lines.len() % 6 == 0;
    if outside(b, 1, 256) || tolerance || !whole || held.len() > 512 || lines.len() > 3072 {
        return (4, 0);
    }
    for (place, entry) in (1..).zip(held.chunks(2)) {
        let earlier = held.chunks(2).take(place - 1).any(|earlier| earlier[0] == entry[0]);
        let height = outside(entry[1], -10_000_000_000, 10_000_000_000);
        if outside(entry[0], 1, b) || height || earlier {
            return (6, place as i64);
        }
    }
    for (place, line) in (1..).zip(lines.chunks(6)) {
        let ends = outside(line[0], 1, b) || outside(line[1], 1, b) || line[0] == line[1];
        let difference = outside(line[2], -100_000_000, 100_000_000);
        let length = outside(line[3], 10, 100_000);
        let class = if version == 1 { line[5] != -1 } else { outside(line[5], 0, 4) };
        if ends || difference || length || outside(line[4], 0, 1) || class {
            return (7, place);
        }
    }
    (0, 0)
}

/// The book of a file, byte by byte; or the refusal's number and place.
fn slow_read(file: &[u8]) -> Result<Book, (i64, i64)> {
    if file.len() < 13 {
        return Err((1, 0));
    }
    let mut bytes = file.iter();
    let mut take = |count| bytes.by_ref().take(count).fold(0, |n, &byte| n << 8 | byte as i64);
    let [stated, version, t, b, h, n] = [4, 1, 2, 2, 2, 2].map(&mut take);
    if stated != file.len() as i64 {
        return Err((2, 0));
    }
    let mut book = Book { version, b, t, held: vec![], lines: vec![] };
    match slow_refusal(&book) {
        (0, 0) if h <= 256 && n <= 512 => {}
        (3, 0) => return Err((3, 0)),
        _ => return Err((4, 0)),
    }
    if stated != 13 + 10 * h + if version == 1 { 12 * n } else { 14 * n } {
        return Err((5, 0));
    }
    for _ in 0..h {
        book.held.extend([2, 8].map(&mut take));
    }
    for _ in 0..n {
        let [from, to, difference, length] = [2, 2, 4, 4].map(&mut take);
        let [class, standing] = if version == 1 { [-1, 1] } else { [1, 1].map(&mut take) };
        book.lines.extend([from, to, difference as i32 as i64, length, standing, class]);
    }
    match slow_refusal(&book) {
        (0, 0) => Ok(book),
        refusal => Err(refusal),
    }
}

#[test]
fn refusals_of_books() {
    let mut random = Random::new(8);
    let mut rows = [0; ROW * MAX_LINES];
    for _ in 0..20_000 {
        let book = any_book(&mut random);
        let answer = Reference::new().survey(book.lent(), &mut rows);
        assert_eq!((answer.number, answer.place), slow_refusal(&book), "{book:?}");
    }
}

#[test]
fn files_of_both_versions() {
    let mut random = Random::new(9);
    let (mut held, mut lines) = ([0; HELD * MAX_HELD], [0; LINE * MAX_LINES]);
    for file in (0..4000).flat_map(|_| files(&mut random)) {
        let ReadAnswer { number, place, version, b, t, h, n } =
            Reference::new().read(&file, &mut held, &mut lines);
        let held = held[..HELD * h as usize].to_vec();
        let lines = lines[..LINE * n as usize].to_vec();
        let read = Book { version, b, t, held, lines };
        let read = if number == 0 { Ok(read) } else { Err((number, place)) };
        assert_eq!(read, slow_read(&file), "{file:?}");
    }
}

/// The refusal of a book that is to be written to so many places: its number and place, or zeros.
fn slow_refusal_to_write(book: &Book, places: usize) -> (i64, i64) {
    let (h, n) = (book.held.len() / 2, book.lines.len() / 6);
    let bytes = 13 + 10 * h + if book.version == 1 { 12 * n } else { 14 * n };
    let withdrawn = || book.lines.chunks(6).any(|line| line[4] == 0);
    match slow_refusal(book) {
        (0, 0) if book.version == 1 && withdrawn() => (16, 0),
        (0, 0) if places < bytes => (10, 0),
        refusal => refusal,
    }
}

/// The file of a good book, byte by byte.
fn slow_write(book: &Book) -> Vec<u8> {
    let mut entries: Vec<(u32, i64)> = vec![];
    for entry in book.held.chunks(2) {
        entries.extend([(2, entry[0]), (8, entry[1])]);
    }
    for line in book.lines.chunks(6) {
        entries.extend([(2, line[0]), (2, line[1]), (4, line[2]), (4, line[3])]);
        if book.version == 2 {
            entries.extend([(1, line[5]), (1, line[4])]);
        }
    }
    let (h, n) = (book.held.len() as i64 / 2, book.lines.len() as i64 / 6);
    let total = 13 + entries.iter().map(|&(count, _)| count as i64).sum::<i64>();
    let head = [(4, total), (1, book.version), (2, book.t), (2, book.b), (2, h), (2, n)];
    // The highest byte first. Division rounds down: a number below zero has the bytes of its two's complement.
    let byte = |number: i64, at: u32| number.div_euclid(1 << (8 * at)).rem_euclid(256) as u8;
    let bytes = |&(count, number)| (0..count).rev().map(move |at| byte(number, at));
    head.iter().chain(&entries).flat_map(bytes).collect()
}

#[test]
fn books_written() {
    let mut random = Random::new(10);
    for _ in 0..20_000 {
        let book = any_book(&mut random);
        let places = (book.file().len() as i64).saturating_add(room(&mut random)).max(0) as usize;
        let mut lent = vec![9; places];
        let answer = Reference::new().write(book.lent(), &mut lent);
        let (number, place) = slow_refusal_to_write(&book, places);
        let mut file = if number == 0 { slow_write(&book) } else { vec![] };
        assert_eq!(answer, Written { number, place, bytes: file.len() as i64 }, "{book:?}");
        if number == 0 {
            assert_eq!(slow_read(&file), Ok(book.clone()));
        }
        // What is lent beyond the file stays as it was, and all of it after a refusal.
        file.resize(places, 9);
        assert_eq!(lent, file, "{book:?}");
    }
}
