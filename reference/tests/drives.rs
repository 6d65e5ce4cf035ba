//! What the differential test drives: its books, calls and files, counted by what is in them. Each thing that is
//! counted here must come up.

use reference::trial::asks::{every_ask, room};
use reference::trial::call::{lay_out, make, Ask, Call, KINDS};
use reference::trial::damage::{any_book, files, NO_VERSIONS};
use reference::trial::random::Random;
use reference::trial::Book;
use reference::*;
use std::collections::BTreeMap;

/// How often each thing came up.
#[derive(Default)]
struct Tally(BTreeMap<String, usize>);

impl Tally {
    fn count(&mut self, what: impl Into<String>, is_so: bool) {
        *self.0.entry(what.into()).or_default() += is_so as usize;
    }

    fn all_came_up(&self) {
        let missing: Vec<&String> =
            self.0.iter().filter(|(_, &times)| times == 0).map(|(what, _)| what).collect();
        assert!(missing.is_empty(), "never: {missing:?} of {:?}", self.0);
    }
}

/// The number and place that a survey answers, with room for every row, and the rows.
fn survey(book: &Book) -> (i64, i64, Vec<i64>) {
    let mut rows = vec![0; ROW * MAX_LINES];
    let answer = Reference::new().survey(book.lent(), &mut rows);
    rows.truncate(ROW * answer.rows as usize);
    (answer.number, answer.place, rows)
}

fn count_good(tally: &mut Tally, book: &Book, rows: &[i64]) {
    let lines = || book.lines.chunks_exact(LINE);
    let has = |class| lines().any(|line| line[5] == class);
    tally.count("good, version 1", book.version == 1);
    let two = book.version == 2;
    for class in 0..5 {
        tally.count(format!("good, class {class}"), two && has(class));
    }
    let classes = (0..5).filter(|&class| has(class)).count();
    tally.count("good, all five classes", classes == 5);
    tally.count("good, several lines of one class", two && book.lines_count() > 1 && classes == 1);
    tally.count("good, version 2 without lines", two && book.lines.is_empty());
    tally.count("good, version 2 with 512 lines", two && book.lines_count() == MAX_LINES);
    tally.count("good, version 2 with withdrawn lines", two && lines().any(|line| line[4] == 0));
    for verdict in [0, 1] {
        let given = two && rows.chunks_exact(ROW).any(|row| row[4] == verdict);
        tally.count(format!("good, version 2 with verdict {verdict}"), given);
    }
    // At the edge: another micrometre turns the verdict.
    let allowed: i64 = lines().map(|line| line_allows(book.t, line)).sum();
    let edge = |by| {
        rows.len() == ROW && rows[1] == book.lines_count() as i64 && {
            verdict(allowed, rows[3].abs()) != verdict(allowed, rows[3].abs() + by)
        }
    };
    tally.count("good, version 2, just within", two && edge(1));
    tally.count("good, version 2, just over", two && edge(-1));
}

/// Whether the faulty line is good but for its number in this place.
fn only_fault(book: &Book, line: i64, place: usize, good: i64) -> bool {
    let mut mended = book.clone();
    mended.lines[LINE * (line as usize - 1) + place] = good;
    let (number, next, _) = survey(&mended);
    (number, next) != (7, line)
}

fn count_refused(tally: &mut Tally, book: &Book, number: i64, place: i64) {
    let extreme = |n: i64| n == i64::MIN || n == i64::MAX;
    for none in NO_VERSIONS {
        tally.count(format!("version {none}"), (number, book.version) == (3, none));
    }
    for (version, t) in [(1, 0), (1, 1001), (2, 1), (2, -1)] {
        let so = (number, book.version, book.t) == (4, version, t);
        tally.count(format!("version {version}, t {t}"), so);
    }
    let of_line = |i: usize| book.lines[LINE * (place as usize - 1) + i];
    for (version, classes) in [(1, [0, -2]), (2, [-1, 5])] {
        let so = book.version == version;
        for refusal in [4, 6, 7] {
            tally.count(format!("version {version}, {refusal}"), so && number == refusal);
        }
        tally.count(format!("version {version}, extreme t"), so && number == 4 && extreme(book.t));
        let by_standing = so && number == 7 && only_fault(book, place, 4, 1);
        tally.count(format!("version {version}, standing 2"), by_standing && of_line(4) == 2);
        let class = *book.limits().class.start();
        let by_class = so && number == 7 && only_fault(book, place, 5, class);
        for class in classes {
            let so = by_class && of_line(5) == class;
            tally.count(format!("version {version}, class {class}"), so);
        }
        let (withdrawn, extreme) = (by_class && of_line(4) == 0, by_class && extreme(of_line(5)));
        tally.count(format!("version {version}, class of a withdrawn line"), withdrawn);
        tally.count(format!("version {version}, extreme class"), extreme);
    }
}

#[test]
fn books() {
    let (mut random, mut tally) = (Random::new(1), Tally::default());
    for _ in 0..4000 {
        let book = any_book(&mut random);
        match survey(&book) {
            (0, _, rows) => count_good(&mut tally, &book, &rows),
            (number, place, _) => count_refused(&mut tally, &book, number, place),
        }
    }
    tally.all_came_up();
}

/// The numbers beside 3 that each call is answered with; an adjustment's 13 is one that no book here comes to.
const NUMBERS: [(&str, &[i64]); 10] = [
    ("level_write", &[0, 4, 6, 7, 10, 16]),
    ("level_survey", &[0, 4, 6, 7, 10]),
    ("level_listing", &[0, 4, 6, 7, 8, 10]),
    ("level_listings", &[0, 4, 6, 7, 10]),
    ("level_not_checked", &[0, 4, 6, 7, 10]),
    ("level_sketch", &[0, 4, 6, 7, 10]),
    ("level_rerun", &[0, 4, 6, 7, 8, 9]),
    ("level_withdraw", &[0, 4, 6, 7, 8, 9]),
    ("level_adjust", &[0, 4, 6, 7, 10, 11, 12]),
    ("level_rate", &[0, 4, 6, 7, 8, 13]),
];

#[test]
fn calls() {
    let (mut random, mut tally) = (Random::new(2), Tally::default());
    let mut reference = Reference::new();
    for _ in 0..2000 {
        let book = any_book(&mut random);
        for ask in every_ask(&mut random, &mut reference, &book) {
            let (difference, heights) = match &ask {
                Ask::Rerun { difference, .. } => (difference.unsigned_abs(), book.b),
                Ask::Rate { heights, .. } => (0, heights.len() as i64),
                _ => (0, book.b),
            };
            let call = Call::Ask { book: book.clone(), ask };
            let lent = lay_out(&mut reference, &call);
            let given = make(&mut reference, &call, &lent).given.number();
            let name = KINDS[call.kind()];
            for (_, numbers) in NUMBERS.iter().filter(|(call, _)| *call == name) {
                for (version, number) in numbers.iter().flat_map(|n| [(1, n), (2, n)]) {
                    let so = (book.version, given) == (version, *number);
                    // Version 2 can say that a line is withdrawn.
                    if (version, *number) == (2, 16) {
                        assert!(!so, "{book:?}");
                    } else {
                        tally.count(format!("{name}, version {version}, {number}"), so);
                    }
                }
                tally.count(format!("{name}, 3"), given == 3);
            }
            let outside = difference > MAX_DIFFERENCE as u64;
            tally.count("3 before a difference outside", given == 3 && outside);
            tally.count("3 before heights not b in number", given == 3 && heights != book.b);
        }
    }
    tally.all_came_up();
}

/// What the writer is lent, beside what it answers: each refusal with those that come after it, and files of all
/// lengths with all that stands at a limit.
fn count_written(tally: &mut Tally, book: &Book, places: usize, number: i64) {
    let lines = || book.lines.chunks_exact(LINE);
    let (bytes, withdrawn) = (book.file().len(), lines().any(|line| line[4] == 0));
    let (short, cannot) = (places < bytes, withdrawn && book.version != 2);
    for earlier in [3, 4, 6, 7] {
        tally.count(format!("{earlier} before 16"), number == earlier && cannot && !short);
        tally.count(format!("{earlier} before 16 and 10"), number == earlier && cannot && short);
    }
    tally.count("16 with room", number == 16 && !short);
    tally.count("16 before 10", number == 16 && short);
    for version in [1, 2] {
        let mut count = |what: &str, refusal, so| {
            let so = so && (book.version, number) == (version, refusal);
            tally.count(format!("version {version}, {what}"), so);
        };
        count("no places", 10, places == 0);
        count("one place short", 10, places + 1 == bytes);
        count("as many places", 0, places == bytes);
        count("more places", 0, places > bytes);
        count("13 bytes", 0, bytes == HEAD_BYTES);
        count("the most bytes", 0, bytes == [8717, 9741][version as usize - 1]);
        for limit in [-1, 1] {
            let height = book.held.chunks_exact(HELD).any(|e| e[1] == limit * MAX_HELD_HEIGHT);
            let difference = lines().any(|line| line[2] == limit * MAX_DIFFERENCE);
            count(&format!("height at {limit}"), 0, height);
            count(&format!("difference at {limit}"), 0, difference);
        }
    }
    tally.count("version 2, some withdrawn", number == 0 && withdrawn);
    let none_stands = withdrawn && lines().all(|line| line[4] == 0);
    tally.count("version 2, all withdrawn", number == 0 && none_stands);
}

#[test]
fn files_written() {
    let (mut random, mut tally) = (Random::new(4), Tally::default());
    let mut reference = Reference::new();
    for _ in 0..4000 {
        let book = any_book(&mut random);
        let ask = Ask::Write { room: room(&mut random) };
        let call = Call::Ask { book: book.clone(), ask };
        let lent = lay_out(&mut reference, &call);
        let given = make(&mut reference, &call, &lent).given.number();
        count_written(&mut tally, &book, lent[2].count(), given);
    }
    tally.all_came_up();
}

fn count_file(tally: &mut Tally, file: &[u8], number: i64, lines: &[i64]) {
    let version = file.get(4).copied().unwrap_or(0);
    for refusal in [1, 3] {
        tally.count(format!("refusal {refusal}"), number == refusal);
    }
    for none in [0, 3, 255] {
        tally.count(format!("version {none}"), number == 3 && version == none);
    }
    for both in [1, 2].iter().flat_map(|&version| [0, 2, 4, 5, 6, 7].map(|n| (version, n))) {
        tally.count(format!("version and answer {both:?}"), (version, number) == both);
    }
    let read = number == 0 && version == 2;
    let has = |place: usize, n| read && lines.chunks_exact(LINE).any(|line| line[place] == n);
    tally.count("read, version 2, 9,741 bytes", read && file.len() == 9741);
    tally.count("read, version 2, withdrawn lines", has(4, 0));
    tally.count("read, version 2, all five classes", (0..5).all(|class| has(5, class)));
}

/// The counts of a file's head, if it is good up to them.
fn head(file: &[u8], number: i64) -> Option<(usize, usize)> {
    let two = |at: usize| u16::from_be_bytes([file[at], file[at + 1]]) as usize;
    (number == 0 || number >= 5).then(|| (two(9), two(11)))
}

/// Files whose lines are those of the other version, and bytes of version 2 lines that are wrong.
fn count_bytes(tally: &mut Tally, file: &[u8], number: i64, place: i64) {
    let Some((h, n)) = head(file, number) else { return };
    let version = file[4];
    let bytes = file.len() - (HEAD_BYTES + HELD_BYTES * h).min(file.len());
    tally.count("12-byte lines as version 2", number == 5 && version == 2 && bytes == 12 * n);
    tally.count("14-byte lines as version 1", number == 5 && version == 1 && bytes == 14 * n);
    tally.count("no lines, version 1", number == 0 && version == 1 && n == 0);
    tally.count("no lines, version 2", number == 0 && version == 2 && n == 0);
    if (version, number) == (2, 7) {
        let line = &file[HEAD_BYTES + HELD_BYTES * h + 14 * (place as usize - 1)..][..14];
        for class in [5, 6, 128, 255] {
            tally.count(format!("class byte {class}"), line[12] == class && line[13] < 2);
        }
        for standing in [2, 3, 128, 255] {
            tally.count(format!("standing byte {standing}"), line[13] == standing && line[12] < 5);
        }
    }
}

#[test]
fn files_read() {
    let (mut random, mut tally) = (Random::new(3), Tally::default());
    let mut reference = Reference::new();
    let (mut held, mut lines) = ([0; HELD * MAX_HELD], [0; LINE * MAX_LINES]);
    for file in (0..1000).flat_map(|_| files(&mut random)) {
        let answer = reference.read(&file, &mut held, &mut lines);
        count_file(&mut tally, &file, answer.number, &lines[..LINE * answer.n as usize]);
        count_bytes(&mut tally, &file, answer.number, answer.place);
    }
    tally.all_came_up();
}
