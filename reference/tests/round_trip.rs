//! "Reading what was written gives the same book, and writing what was read gives the same bytes."

use reference::trial::asks::room;
use reference::trial::call::{lay_out, make, Ask, Call, Given, Outcome};
use reference::trial::damage::files;
use reference::trial::random::Random;
use reference::trial::round_trip::{book_of, is_back, way_back};
use reference::trial::shapes::{good_book, largest_book};
use reference::trial::Book;
use reference::*;
use std::path::Path;

/// The book of a file, if it is read.
fn read(level: &mut Reference, file: &[u8]) -> Option<Book> {
    let (mut held, mut lines) = (vec![9; HELD * MAX_HELD], vec![9; LINE * MAX_LINES]);
    let answer = level.read(file, &mut held, &mut lines);
    book_of(answer, &held, &lines)
}

/// The file of a book, if it is written.
fn write(level: &mut Reference, book: &Book) -> Option<Vec<u8>> {
    let mut file = vec![9; MAX_FILE];
    let answer = level.write(book.lent(), &mut file);
    file.truncate(answer.bytes as usize);
    (answer.number == 0).then_some(file)
}

/// The files of books/, by name.
fn folder() -> Vec<(String, Vec<u8>)> {
    let folder = Path::new(env!("CARGO_MANIFEST_DIR")).join("../books");
    let entries = folder.read_dir().unwrap().map(|entry| entry.unwrap().path());
    let name = |path: &Path| path.file_name().unwrap().to_string_lossy().into_owned();
    entries.map(|path| (name(&path), std::fs::read(&path).unwrap())).collect()
}

#[test]
fn every_book_of_the_folder() {
    let mut refused = vec![];
    for (name, file) in folder() {
        match read(&mut Reference::new(), &file) {
            Some(book) => assert_eq!(write(&mut Reference::new(), &book), Some(file), "{name}"),
            None => refused.push(name),
        }
    }
    assert!(folder().len() >= 8);
    assert_eq!(refused, ["damaged.book"]);
}

/// The book after line 6 was run again, and after line 3 was withdrawn too.
fn corrected(mut book: Book) -> [Book; 2] {
    let (mut level, mut report) = (Reference::new(), [0; 20]);
    assert_eq!(level.survey(book.lent(), &mut report).number, 0);
    assert_eq!(level.rerun(book.lent_mut(), &mut report, 6, 2_428_000).number, 0);
    let rerun = book.clone();
    assert_eq!(level.withdraw(book.lent_mut(), &mut report, 3).number, 0);
    [rerun, book]
}

/// The places where two files of one length differ.
fn differences(one: &[u8], other: &[u8]) -> Vec<usize> {
    assert_eq!(one.len(), other.len());
    (0..one.len()).filter(|&at| one[at] != other[at]).collect()
}

/// What is handed in after corrections: version 2 says that a line is withdrawn, version 1 cannot.
#[test]
fn corrected_books() {
    let mut level = Reference::new();
    let file = include_bytes!("../../books/worked.book");
    let [rerun, withdrawn] = corrected(read(&mut level, file).unwrap());
    let written = write(&mut level, &rerun).unwrap();
    assert_eq!(differences(&written, file), [88, 89, 90], "the difference of line 6");
    assert_eq!(read(&mut level, &written), Some(rerun));
    assert_eq!(write(&mut level, &withdrawn), None);

    let file = include_bytes!("../../books/three_classes.book");
    let [rerun, withdrawn] = corrected(read(&mut level, file).unwrap());
    let [before, after] = [&rerun, &withdrawn].map(|book| write(&mut level, book).unwrap());
    assert_eq!(differences(&before, &after), [64], "the standing of line 3");
    assert_eq!(read(&mut level, &after), Some(withdrawn));
}

#[test]
fn numbers_at_their_limits() {
    let held = vec![256, -10_000_000_000, 1, 10_000_000_000];
    let lines = vec![1, 256, -100_000_000, 10, 0, 4, 256, 1, 100_000_000, 100_000, 1, 0];
    let two = Book { version: 2, b: 256, t: 0, held, lines };
    #[rustfmt::skip]
    let entries = [
        1, 0, 255, 255, 255, 253, 171, 244, 28, 0,
        0, 1, 0, 0, 0, 2, 84, 11, 228, 0,
        0, 1, 1, 0, 250, 10, 31, 0, 0, 0, 0, 10, 4, 0,
        1, 0, 0, 1, 5, 245, 225, 0, 0, 1, 134, 160, 0, 1,
    ];
    let file = [&[0, 0, 0, 61, 2, 0, 0, 1, 0, 0, 2, 0, 2][..], &entries].concat();
    assert_eq!(write(&mut Reference::new(), &two), Some(file));

    let mut one = Book { version: 1, t: 1000, ..two };
    one.lines.chunks_exact_mut(LINE).for_each(|line| (line[4], line[5]) = (1, NO_CLASS));
    let lines = [&entries[20..32], &entries[34..46]].concat();
    let head = [0, 0, 0, 57, 1, 3, 232, 1, 0, 0, 2, 0, 2];
    assert_eq!(write(&mut Reference::new(), &one), Some([&head, &entries[..20], &lines].concat()));
}

#[test]
fn the_shortest_file() {
    let one = Book { version: 1, b: 1, t: 1, held: vec![], lines: vec![] };
    let two = one.clone().classed(|_| 0);
    let files = [one, two].map(|book| write(&mut Reference::new(), &book).unwrap());
    assert_eq!(files[0], [0, 0, 0, 13, 1, 0, 1, 0, 1, 0, 0, 0, 0]);
    assert_eq!(files[1], [0, 0, 0, 13, 2, 0, 0, 0, 1, 0, 0, 0, 0]);
}

/// Whether a good book can be written: version 1 cannot say that a line is withdrawn.
fn is_written(book: &Book) -> bool {
    book.version == 2 || book.lines.chunks_exact(LINE).all(|line| line[4] == 1)
}

#[test]
fn the_longest_files() {
    let (mut random, mut level) = (Random::new(12), Reference::new());
    let mut lengths = vec![];
    while lengths.len() < 40 {
        let book = largest_book(&mut random);
        if is_written(&book) {
            let file = write(&mut level, &book).unwrap();
            lengths.push((book.version, file.len()));
            assert_eq!(read(&mut level, &file), Some(book));
        }
    }
    lengths.sort();
    lengths.dedup();
    assert_eq!(lengths, [(1, 8717), (2, 9741)]);
}

#[test]
fn books_there_and_back() {
    let (mut random, mut level) = (Random::new(10), Reference::new());
    for _ in 0..5000 {
        let book = good_book(&mut random);
        let file = write(&mut level, &book);
        assert_eq!(file.is_some(), is_written(&book), "{book:?}");
        if let Some(file) = file {
            assert_eq!(read(&mut level, &file), Some(book));
        }
    }
}

#[test]
fn files_there_and_back() {
    let (mut random, mut level) = (Random::new(11), Reference::new());
    let mut count = 0;
    for file in (0..1000).flat_map(|_| files(&mut random)) {
        if let Some(book) = read(&mut level, &file) {
            assert_eq!(write(&mut level, &book), Some(file));
            count += 1;
        }
    }
    assert!(count > 1000, "{count}");
}

/// What comes of a call.
fn outcome(call: &Call) -> Outcome {
    let lent = lay_out(&mut Reference::new(), call);
    make(&mut Reference::new(), call, &lent)
}

/// The differential test's way back, of calls with places of every count. Where t becomes another on the way, it
/// does not lead back.
#[test]
fn the_way_back() {
    let (mut random, mut count) = (Random::new(13), 0);
    for _ in 0..500 {
        let book = good_book(&mut random);
        let (held_room, lines_room) = (room(&mut random), room(&mut random));
        let reading = Call::Read { file: book.file(), held_room, lines_room };
        let writing = Call::Ask { book, ask: Ask::Write { room: room(&mut random) } };
        for call in [reading, writing] {
            let mut after = outcome(&call);
            let Some(back) = way_back(&after) else {
                assert_ne!(after.given.number(), 0, "{call:?}");
                continue;
            };
            assert!(is_back(&call, &outcome(&back)), "{call:?}");
            match &mut after.given {
                Given::Read(answer) => answer.t ^= 1,
                _ => after.buffers[2].bytes_mut()[6] ^= 1,
            }
            let back = way_back(&after).unwrap();
            assert!(!is_back(&call, &outcome(&back)), "{call:?}");
            count += 1;
        }
    }
    assert!(count > 200, "{count}");
}
