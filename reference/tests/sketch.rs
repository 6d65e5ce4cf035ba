//! The junction sketch: the Memorandum's network, its edge cases, and what is promised of it.

use reference::trial::random::Random;
use reference::trial::shapes::{good_book, Shape};
use reference::trial::Book;
use reference::*;

/// A line of 100 m and no difference between each pair of marks.
fn book(b: i64, pairs: &[(i64, i64)]) -> Book {
    let lines = pairs.iter().flat_map(|&(from, to)| [from, to, 0, 100, 1, NO_CLASS]).collect();
    Book { version: 1, b, t: 40, held: vec![], lines }
}

/// The Memorandum's letters in alphabetical order as marks 1 to 16; there is no I and no O.
fn memorandum() -> Book {
    let mark = |letter: char| "ABCDEFGHJKLMNPQR".find(letter).map_or(0, |i| i as i64 + 1);
    let lines = "AE EB BC CG GD DA AF FC BD FH HJ JK KH KL LM MN NP PM PQ QR".split(' ');
    let pair = |line: &str| (mark(line.as_bytes()[0] as char), mark(line.as_bytes()[1] as char));
    book(16, &lines.map(pair).collect::<Vec<_>>())
}

/// A link, spur or loop: its five numbers and its lines.
type Entry = ([i64; ENTRY], Vec<i64>);

#[derive(Debug, PartialEq)]
struct Sketch {
    links: Vec<Entry>,
    spurs: Vec<Entry>,
    loops: Vec<Entry>,
}

/// The sketch of a good book.
fn sketch(book: &Book) -> Sketch {
    let [mut links, mut spurs, mut loops] = [[0; ENTRY * MAX_LINES]; 3];
    let mut run = [0; MAX_LINES];
    let answer = Reference::new().sketch(book.lent(), &mut links, &mut spurs, &mut loops, &mut run);
    assert_eq!((answer.number, answer.place), (0, 0), "{book:?}");
    let mut left = run[..answer.run as usize].iter().copied();
    let mut list = |numbers: &[i64], count: i64| -> Vec<Entry> {
        let entries = numbers.chunks_exact(ENTRY).take(count as usize);
        let entry = |five: &[i64]| <[i64; ENTRY]>::try_from(five).unwrap();
        entries.map(|five| (entry(five), left.by_ref().take(five[2] as usize).collect())).collect()
    };
    let sketch = Sketch {
        links: list(&links, answer.links),
        spurs: list(&spurs, answer.spurs),
        loops: list(&loops, answer.loops),
    };
    assert_eq!(left.next(), None, "{book:?}");
    sketch
}

/// First mark, last mark and lines of each entry.
fn ways(list: &[Entry]) -> Vec<(i64, i64, &[i64])> {
    list.iter().map(|(five, run)| (five[0], five[1], &run[..])).collect()
}

fn text(file: &[u8]) -> String {
    String::from_utf8(Reference::new().sketch_text(file)).unwrap()
}

#[test]
fn the_memorandums_network() {
    assert_eq!(
        text(&memorandum().file()),
        "JUNCTION SKETCH\n\
         MARKS 16 LINES 20 LINKS 6 SPURS 4 LOOPS 2\n\
         LINK 1 2 LENGTH 200 DIFFERENCE 0: 1 2\n\
         LINK 2 3 LENGTH 100 DIFFERENCE 0: 3\n\
         LINK 3 4 LENGTH 200 DIFFERENCE 0: 4 5\n\
         LINK 1 4 LENGTH 100 DIFFERENCE 0: -6\n\
         LINK 1 3 LENGTH 200 DIFFERENCE 0: 7 8\n\
         LINK 2 4 LENGTH 100 DIFFERENCE 0: 9\n\
         SPUR 16 LENGTH 100 DIFFERENCE 0: -20\n\
         SPUR 15 LENGTH 100 DIFFERENCE 0: -19\n\
         SPUR 12 LENGTH 200 DIFFERENCE 0: -15 -14\n\
         SPUR 8 LENGTH 100 DIFFERENCE 0: -10\n\
         LOOP 12 LENGTH 300 MISCLOSURE 0: 16 17 18\n\
         LOOP 8 LENGTH 300 MISCLOSURE 0: 11 12 13\n"
    );
    // The mark at a spur's other end is not in the text.
    let sketch = sketch(&memorandum());
    let spurs = [(16, 15, &[-20][..]), (15, 14, &[-19]), (12, 10, &[-15, -14]), (8, 6, &[-10])];
    assert_eq!(ways(&sketch.spurs), spurs);
}

/// A sketch looks neither at versions nor at classes, and its text names no version.
#[test]
fn the_same_in_version_2() {
    let (book, classed) = (memorandum(), memorandum().classed(|i| i as i64 % 5));
    assert_eq!(sketch(&book), sketch(&classed));
    assert_eq!(text(&book.file()), text(&classed.file()));
}

/// Unlike version 1, a version 2 file says which lines are withdrawn.
#[test]
fn withdrawn_in_the_file() {
    let mut book = memorandum().classed(|_| 2);
    book.lines[LINE * 8 + 4] = 0;
    let text = text(&book.file());
    assert!(
        text.starts_with("JUNCTION SKETCH\nMARKS 16 LINES 20 LINKS 3 SPURS 4 LOOPS 2\n"),
        "{text}"
    );
}

#[test]
fn refused_files() {
    assert_eq!(text(&[]), "REFUSED 1 AT 0\n");
    let mut file = memorandum().file();
    file[HEAD_BYTES + 3 * Version::ONE.line_bytes] = 9;
    assert_eq!(text(&file), "REFUSED 7 AT 4\n");
    file.resize(MAX_READ + 1, 0);
    assert_eq!(text(&file), "REFUSED 2 AT 0\n");
    file[..4].copy_from_slice(&(MAX_READ as u32).to_be_bytes());
    assert_eq!(text(&file), "REFUSED 5 AT 0\n", "one byte more than is read");
}

#[test]
fn no_lines() {
    for b in [1, 5, 256] {
        let none = Sketch { links: vec![], spurs: vec![], loops: vec![] };
        assert_eq!(sketch(&book(b, &[])), none);
        let empty = format!("JUNCTION SKETCH\nMARKS {b} LINES 0 LINKS 0 SPURS 0 LOOPS 0\n");
        assert_eq!(text(&book(b, &[]).file()), empty);
    }
}

#[test]
fn parallel_lines() {
    let one = sketch(&book(2, &[(2, 1)]));
    assert_eq!(ways(&one.spurs), [(1, 2, &[-1][..])], "the spur of its lower mark");
    let two = sketch(&book(2, &[(2, 1), (2, 1)]));
    assert_eq!(ways(&two.loops), [(2, 2, &[1, -2][..])]);
    assert_eq!((two.links.len(), two.spurs.len()), (0, 0));
    let three = sketch(&book(2, &[(2, 1), (1, 2), (2, 1)]));
    assert_eq!(ways(&three.links), [(1, 2, &[-1][..]), (1, 2, &[2]), (1, 2, &[-3])]);
    let most = sketch(&book(2, &Shape::parallel(512).pairs));
    assert_eq!((most.links.len(), most.spurs.len(), most.loops.len()), (512, 0, 0));
}

#[test]
fn rings() {
    // At the highest mark, and begun elsewhere.
    let ring = sketch(&book(4, &[(4, 3), (1, 2), (2, 3), (1, 4)]));
    assert_eq!(ways(&ring.loops), [(4, 4, &[1, -3, -2, 4][..])]);
    for marks in 3..=256 {
        let whole = sketch(&book(marks, &Shape::ring(marks).pairs));
        let lines: Vec<i64> = (1..=marks).collect();
        assert_eq!(ways(&whole.loops), [(marks, marks, &lines[..])]);
        assert_eq!((whole.links.len(), whole.spurs.len()), (0, 0));
    }
    let sharing = [(4, 1), (1, 2), (2, 4), (6, 4), (4, 5), (5, 6)];
    let two = sketch(&book(6, &sharing));
    assert_eq!(ways(&two.loops), [(4, 4, &[1, 2, 3][..]), (6, 6, &[4, 5, 6])]);
    let on_a_ring = [(1, 5), (5, 6), (6, 1), (1, 2), (2, 3), (3, 1)];
    let two = sketch(&book(6, &on_a_ring));
    assert_eq!(ways(&two.loops), [(1, 1, &[4, 5, 6][..]), (6, 6, &[1, 2, 3])]);
}

#[test]
fn tails() {
    let path = sketch(&book(4, &[(1, 2), (3, 2), (3, 4)]));
    assert_eq!(ways(&path.spurs), [(1, 2, &[1][..]), (2, 3, &[-2]), (3, 4, &[3])]);
    let star = sketch(&book(4, &[(1, 2), (1, 3), (1, 4)]));
    assert_eq!(ways(&star.spurs), [(2, 1, &[-1][..]), (3, 1, &[-2]), (1, 4, &[3])]);
    // A tail from a ring comes off line by line, before the ring.
    let tail = sketch(&book(5, &[(1, 2), (2, 3), (3, 1), (3, 4), (4, 5)]));
    assert_eq!(ways(&tail.spurs), [(5, 4, &[-5][..]), (4, 3, &[-4])]);
    assert_eq!(ways(&tail.loops), [(3, 3, &[1, 2, 3][..])]);
}

#[test]
fn withdrawn_lines() {
    let mut book = memorandum();
    for number in [9, 17] {
        book.lines[LINE * (number - 1) + 4] = 0;
    }
    let sketch = sketch(&book);
    let spurs = [
        (13, 12, &[-16][..]),
        (16, 15, &[-20]),
        (15, 14, &[-19]),
        (14, 12, &[18]),
        (12, 11, &[-15]),
        (11, 10, &[-14]),
        (8, 6, &[-10]),
    ];
    assert_eq!(ways(&sketch.spurs), spurs);
    let links = [(1, 3, &[1, 2, 3][..]), (1, 3, &[-6, -5, -4]), (1, 3, &[7, 8])];
    assert_eq!(ways(&sketch.links), links);
    assert_eq!(ways(&sketch.loops), [(8, 8, &[11, 12, 13][..])]);
}

/// The end of a walk from a mark over signed lines of the book, if each goes on where the last ended.
fn walk(book: &Book, from: i64, run: &[i64]) -> Option<i64> {
    run.iter().try_fold(from, |at, &signed| {
        let line = &book.lines[LINE * (signed.unsigned_abs() as usize - 1)..];
        let (begin, end) = if signed > 0 { (line[0], line[1]) } else { (line[1], line[0]) };
        (begin == at).then_some(end)
    })
}

/// Length and difference are the sums of a list's lines.
fn sums_are_right(book: &Book, (five, run): &Entry) {
    let line = |signed: i64| &book.lines[LINE * (signed.unsigned_abs() as usize - 1)..];
    let length: i64 = run.iter().map(|&signed| line(signed)[3]).sum();
    let difference: i64 = run.iter().map(|&signed| signed.signum() * line(signed)[2]).sum();
    assert_eq!(five[2..], [run.len() as i64, length, difference], "{book:?}");
}

fn lowest(run: &[i64]) -> i64 {
    run.iter().map(|signed| signed.abs()).min().unwrap_or(0)
}

/// Every promise that can be seen in the lists themselves.
fn promises(book: &Book, Sketch { links, spurs, loops }: &Sketch) {
    let all = || links.iter().chain(spurs).chain(loops);
    let mut used: Vec<i64> = all().flat_map(|(_, run)| run).map(|signed| signed.abs()).collect();
    used.sort_unstable();
    let lines = (1..).zip(book.lines.chunks_exact(LINE));
    let standing: Vec<i64> = lines.filter(|(_, line)| line[4] == 1).map(|(i, _)| i).collect();
    assert_eq!(used, standing, "each standing line once: {book:?}");
    all().for_each(|entry| sums_are_right(book, entry));
    let mut ends = vec![0; book.b as usize + 1];
    for (five, run) in links {
        assert!(five[0] < five[1], "{book:?}");
        assert_eq!(walk(book, five[0], run), Some(five[1]), "{book:?}");
        ends[five[0] as usize] += 1;
        ends[five[1] as usize] += 1;
    }
    assert!(ends.iter().all(|&count| count == 0 || count > 2), "{book:?}");
    assert!(links.windows(2).all(|two| lowest(&two[0].1) < lowest(&two[1].1)), "{book:?}");
    for (five, run) in spurs {
        assert_eq!(walk(book, five[0], run), Some(five[1]), "{book:?}");
    }
    for (five, run) in loops {
        let begin = book.lines[LINE * (run[0] as usize - 1)];
        assert_eq!((five[0], run[0]), (five[1], lowest(run)), "{book:?}");
        assert_eq!(walk(book, begin, run), Some(begin), "{book:?}");
    }
    assert!(spurs.len() + loops.len() < book.b as usize, "{book:?}");
}

#[test]
fn promises_are_kept() {
    let mut random = Random::new(5);
    for _ in 0..5000 {
        let mut book = good_book(&mut random);
        let before = sketch(&book);
        promises(&book, &before);
        // A re-run changes differences only.
        for line in book.lines.chunks_exact_mut(LINE) {
            line[2] = random.within(-MAX_DIFFERENCE, MAX_DIFFERENCE);
        }
        let after = sketch(&book);
        let kept = |list: &[Entry]| -> Vec<([i64; 4], Vec<i64>)> {
            list.iter().map(|([a, z, n, l, _], run)| ([*a, *z, *n, *l], run.clone())).collect()
        };
        assert_eq!(kept(&before.links), kept(&after.links));
        assert_eq!(kept(&before.spurs), kept(&after.spurs));
        assert_eq!(kept(&before.loops), kept(&after.loops));
    }
}
