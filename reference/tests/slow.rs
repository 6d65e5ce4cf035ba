//! The rules once more, word by word and slowly, on small books with many ties.

use reference::trial::call::own_report;
use reference::trial::random::Random;
use reference::trial::shapes::{edge_book, good_book, roots, small_book};
use reference::trial::Book;
use reference::*;

/// A line of the book, with its number.
#[derive(Clone, Copy, Debug)]
struct Line {
    number: i64,
    from: i64,
    to: i64,
    difference: i64,
    length: i64,
    tolerance: i64,
}

/// "The tolerance of each comes from a table of five"; "version 1 keeps its single t".
fn tolerance(book: &Book, class: i64) -> i64 {
    match (book.version, class) {
        (1, -1) => book.t,
        (2, 0) => 40,
        (2, 1) => 50,
        (2, 2) => 60,
        (2, 3) => 80,
        (2, 4) => 120,
        _ => panic!("class {class} in version {}", book.version),
    }
}

impl Line {
    fn new(book: &Book, number: i64, l: &[i64]) -> Self {
        let tolerance = tolerance(book, l[5]);
        Line { number, from: l[0], to: l[1], difference: l[2], length: l[3], tolerance }
    }

    /// "Tolerance squared times length", a length of less than 250 taken as 250.
    fn allows(&self) -> i64 {
        self.tolerance * self.tolerance * if self.length < 250 { 250 } else { self.length }
    }

    /// The other end, seen from a mark, if the line touches it.
    fn beyond(&self, mark: i64) -> Option<i64> {
        match mark {
            m if m == self.from => Some(self.to),
            m if m == self.to => Some(self.from),
            _ => None,
        }
    }

    /// The difference when run from a mark.
    fn rise_from(&self, mark: i64) -> i64 {
        if mark == self.from {
            self.difference
        } else {
            -self.difference
        }
    }
}

/// Only standing lines count.
fn standing(book: &Book) -> Vec<Line> {
    let numbered = (1..).zip(book.lines.chunks_exact(LINE));
    let standing = numbered.filter(|(_, l)| l[4] == 1);
    standing.map(|(number, l)| Line::new(book, number, l)).collect()
}

/// Tree and closing lines, and the number of pieces.
struct Slow {
    tree: Vec<Line>,
    closing: Vec<Line>,
    pieces: i64,
}

fn slow_tree(b: i64, lines: &[Line]) -> Slow {
    let mut slow = Slow { tree: vec![], closing: vec![], pieces: 0 };
    let mut entered: Vec<i64> = vec![];
    for root in 1..=b {
        if entered.contains(&root) {
            continue;
        }
        slow.pieces += 1;
        let mut candidates: Vec<(i64, i64, Line)> = vec![]; // score, number, line
        let (mut mark, mut distance) = (root, 0);
        loop {
            entered.push(mark);
            // Every candidate that now has both ends in the tree becomes a closing line.
            let (mut closed, rest): (Vec<_>, Vec<_>) = candidates
                .into_iter()
                .partition(|(_, _, l)| entered.contains(&l.from) && entered.contains(&l.to));
            closed.sort_by_key(|&(score, number, _)| (score, number));
            slow.closing.extend(closed.iter().map(|c| c.2));
            candidates = rest;
            // A line becomes a candidate when the first of its two ends enters the tree.
            for l in lines {
                if l.beyond(mark).is_some_and(|other| !entered.contains(&other)) {
                    candidates.push((distance + l.length, l.number, *l));
                }
            }
            candidates.sort_by_key(|&(score, number, _)| (score, number));
            if candidates.is_empty() {
                break;
            }
            let (score, _, l) = candidates.remove(0);
            slow.tree.push(l);
            mark = if entered.contains(&l.from) { l.to } else { l.from };
            distance = score;
        }
    }
    slow
}

/// A search through every path in a subgraph that ends at a mark.
struct Search<'a> {
    subgraph: &'a [Line],
    end: i64,
    seen: Vec<i64>,
    path: Vec<i64>,
    best: Option<(i64, Vec<i64>)>,
}

impl Search<'_> {
    fn go_on(&mut self, at: i64, length: i64) {
        if at == self.end {
            let this = (length, self.path.clone());
            if self.best.as_ref().is_none_or(|best| this < *best) {
                self.best = Some(this);
            }
            return;
        }
        self.seen.push(at);
        for l in self.subgraph {
            if let Some(next) = l.beyond(at).filter(|m| !self.seen.contains(m)) {
                self.path.push(l.number);
                self.go_on(next, length + l.length);
                self.path.pop();
            }
        }
        self.seen.pop();
    }
}

/// The length and line numbers of the path from a line's to end to its from end, if there is one.
fn slow_path(subgraph: &[Line], line: Line) -> Option<(i64, Vec<i64>)> {
    let mut search = Search { subgraph, end: line.from, seen: vec![], path: vec![], best: None };
    search.go_on(line.to, 0);
    search.best
}

/// Report rows, and each loop's listing.
fn slow_loops(slow: &Slow) -> (Vec<i64>, Vec<Vec<i64>>) {
    let mut subgraph = slow.tree.clone();
    let (mut rows, mut lists) = (vec![], vec![]);
    for &closing in &slow.closing {
        let (length, path) = slow_path(&subgraph, closing).expect("the tree joins every piece");
        let (mut misclosure, mut at) = (closing.difference, closing.to);
        let mut allowed = closing.allows();
        let mut list = vec![closing.number];
        for &number in &path {
            let l = subgraph.iter().find(|l| l.number == number).expect("a line of the path");
            misclosure += l.rise_from(at);
            allowed += l.allows();
            list.push(if l.from == at { number } else { -number });
            at = l.beyond(at).expect("the path is joined");
        }
        assert_eq!(at, closing.from);
        if path.len() != 1 {
            subgraph.push(closing);
        }
        let length = length + closing.length;
        let within = misclosure as i128 * misclosure as i128 <= 10 * allowed as i128;
        let count = list.len() as i64;
        rows.extend([closing.number, count, length, misclosure, !within as i64]);
        lists.push(list);
    }
    (rows, lists)
}

/// Lines in no reported loop, by rising number.
fn slow_not_checked(lines: &[Line], lists: &[Vec<i64>]) -> Vec<i64> {
    let checked = |number: i64| lists.iter().flatten().any(|&signed| signed.abs() == number);
    lines.iter().map(|l| l.number).filter(|&number| !checked(number)).collect()
}

/// Lines whose ends are apart without them.
fn slow_on_no_circuit(lines: &[Line]) -> Vec<i64> {
    let apart = |line: &&Line| {
        let others: Vec<Line> = lines.iter().copied().filter(|l| l.number != line.number).collect();
        slow_path(&others, **line).is_none()
    };
    lines.iter().filter(apart).map(|l| l.number).collect()
}

/// A link, spur or loop: its first mark, its last mark, and its lines, negative where one is run from
/// its to to its from.
type Walk = (i64, i64, Vec<i64>);

fn lowest_line(walk: &Walk) -> i64 {
    walk.2.iter().map(|number| number.abs()).min().expect("a walk has lines")
}

fn read_from(mark: i64, (first, last, run): Walk) -> Walk {
    if first == mark {
        (first, last, run)
    } else {
        (last, first, run.iter().rev().map(|number| -number).collect())
    }
}

/// The places of the links that end at a mark, one for each end.
fn ends_at(links: &[Walk], mark: i64) -> Vec<usize> {
    let ends = links.iter().enumerate().flat_map(|(i, link)| [(i, link.0), (i, link.1)]);
    ends.filter(|&(_, end)| end == mark).map(|(i, _)| i).collect()
}

/// A self-closing loop begun with its lowest line, positive.
fn begun_with_lowest((mark, _, mut run): Walk) -> Walk {
    let lowest = run.iter().map(|number| number.abs()).min().expect("a loop has lines");
    if run.contains(&-lowest) {
        run = run.iter().rev().map(|number| -number).collect();
    }
    while run[0] != lowest {
        run.rotate_left(1);
    }
    (mark, mark, run)
}

/// Links, spurs and loops.
#[derive(Default)]
struct SlowSketch {
    links: Vec<Walk>,
    spurs: Vec<Walk>,
    loops: Vec<Walk>,
}

/// Takes the first step there is: the spur of lowest mark; else the self-closing loop of lowest line;
/// else the merge at the lowest mark that has exactly two link ends, of two different links.
fn slow_step(b: i64, sketch: &mut SlowSketch) -> bool {
    let SlowSketch { links, spurs, loops } = sketch;
    for mark in 1..=b {
        if let [only] = ends_at(links, mark)[..] {
            spurs.push(read_from(mark, links.remove(only)));
            return true;
        }
    }
    let closing = (0..links.len()).filter(|&i| links[i].0 == links[i].1);
    if let Some(lowest) = closing.min_by_key(|&i| lowest_line(&links[i])) {
        loops.push(begun_with_lowest(links.remove(lowest)));
        return true;
    }
    for mark in 1..=b {
        match ends_at(links, mark)[..] {
            [one, other] if one != other => {
                let (_, last, after) = read_from(mark, links.remove(one.max(other)));
                let (_, first, before) = read_from(mark, links.remove(one.min(other)));
                let to_mark = before.iter().rev().map(|number| -number);
                links.push((first, last, to_mark.chain(after).collect()));
                return true;
            }
            _ => {}
        }
    }
    false
}

/// "What remains are the links, listed by lowest line, each from its lower junction to its higher."
fn slow_sketch(b: i64, lines: &[Line]) -> SlowSketch {
    let links = lines.iter().map(|l| (l.from, l.to, vec![l.number])).collect();
    let mut sketch = SlowSketch { links, ..SlowSketch::default() };
    while slow_step(b, &mut sketch) {}
    for link in &mut sketch.links {
        *link = read_from(link.0.min(link.1), link.clone());
    }
    sketch.links.sort_by_key(lowest_line);
    sketch
}

/// The five numbers of each entry of a list.
fn entries(list: &[Walk], lines: &[Line]) -> Vec<i64> {
    let mut entries = vec![];
    for (first, last, run) in list {
        let (mut length, mut difference) = (0, 0);
        for number in run {
            let l = lines.iter().find(|l| l.number == number.abs()).expect("a standing line");
            length += l.length;
            difference += number.signum() * l.difference;
        }
        entries.extend([*first, *last, run.len() as i64, length, difference]);
    }
    entries
}

/// The sketch is the slow one, in outputs that just hold it.
fn same_sketch(reference: &mut Reference, book: &Book) {
    let lines = standing(book);
    let slow = slow_sketch(book.b, &lines);
    let lists = [&slow.links, &slow.spurs, &slow.loops];
    let want = lists.map(|list| entries(list, &lines));
    let want_run: Vec<i64> = lists.into_iter().flatten().flat_map(|walk| walk.2.clone()).collect();
    let [mut links, mut spurs, mut loops] = want.clone().map(|list| vec![0; list.len()]);
    let mut run = vec![0; lines.len()];
    let got = reference.sketch(book.lent(), &mut links, &mut spurs, &mut loops, &mut run);
    let counts = lists.map(|list| list.len() as i64);
    assert_eq!([got.number, got.place], [0; 2], "{book:?}");
    assert_eq!([got.links, got.spurs, got.loops], counts, "{book:?}");
    assert_eq!((got.run as usize, run), (lines.len(), want_run), "{book:?}");
    assert_eq!([links, spurs, loops], want, "{book:?}");
}

/// The heights before the first sweep; or the lowest mark of the first piece without a held mark.
fn slow_start(book: &Book, tree: &[Line]) -> Result<Vec<i64>, i64> {
    let roots = roots(book.b, &book.lines);
    let root = |mark: i64| roots[mark as usize - 1];
    let mut heights: Vec<Option<i64>> = vec![None; book.b as usize + 1];
    for piece in (1..=book.b).filter(|&m| root(m) == m) {
        let of_piece = book.held.chunks_exact(HELD).filter(|entry| root(entry[0]) == piece);
        let lowest = of_piece.min_by_key(|entry| entry[0]).ok_or(piece)?;
        heights[lowest[0] as usize] = Some(lowest[1]);
        // The others follow along the tree.
        while let Some((mark, height)) = tree.iter().find_map(|l| follow(&heights, l)) {
            heights[mark as usize] = Some(height);
        }
    }
    for entry in book.held.chunks_exact(HELD) {
        heights[entry[0] as usize] = Some(entry[1]);
    }
    Ok(heights[1..].iter().map(|h| h.expect("the tree reaches every mark")).collect())
}

/// A mark without a height beside one that has one, and the height it gets.
fn follow(heights: &[Option<i64>], l: &Line) -> Option<(i64, i64)> {
    match (heights[l.from as usize], heights[l.to as usize]) {
        (Some(height), None) => Some((l.to, height + l.difference)),
        (None, Some(height)) => Some((l.from, height - l.difference)),
        _ => None,
    }
}

/// The move of a mark: g/D to the nearest whole number, halves toward zero.
fn slow_move(lines: &[Line], heights: &[i64], mark: i64) -> i64 {
    let height = |m: i64| heights[m as usize - 1];
    let (mut d, mut g) = (0, 0);
    for l in lines {
        if let Some(other) = l.beyond(mark) {
            let weight = 1_000_000 / l.length;
            d += weight;
            g += weight * (height(other) + l.rise_from(other) - height(mark));
        }
    }
    // Of the whole numbers with the least distance from g/D, the one nearest to zero.
    let about = g / d;
    (about - 2..=about + 2).min_by_key(|q| ((g - q * d).abs(), q.abs())).unwrap_or(0)
}

/// The number and place of the refusal, or the sweeps and heights.
fn slow_adjust(book: &Book, tree: &[Line]) -> Result<(i64, Vec<i64>), (i64, i64)> {
    let lines = standing(book);
    let mut heights = slow_start(book, tree).map_err(|mark| (11, mark))?;
    let held = |mark: i64| book.held.chunks_exact(HELD).any(|entry| entry[0] == mark);
    for sweep in 1..=10_000 {
        let before = heights.clone();
        for mark in (1..=book.b).filter(|&m| !held(m)) {
            let height = heights[mark as usize - 1] + slow_move(&lines, &heights, mark);
            heights[mark as usize - 1] = height;
            if height.abs() > MAX_HEIGHT {
                return Err((13, mark));
            }
        }
        if heights == before {
            return Ok((sweep, heights));
        }
    }
    Err((12, 0))
}

/// A corrected report equals the fresh one of the corrected book; the vacated row is zeros.
fn corrections(reference: &mut Reference, book: &Book, rows: &[i64], random: &mut Random) {
    let all = standing(book);
    if all.is_empty() {
        return;
    }
    let line = all[random.below(all.len())].number;
    for withdrawing in [false, true] {
        let (mut book, mut report) = (book.clone(), [rows, &[77]].concat());
        let answer = if withdrawing {
            reference.withdraw(book.lent_mut(), &mut report, line)
        } else {
            let difference = random.within(-MAX_DIFFERENCE, MAX_DIFFERENCE);
            reference.rerun(book.lent_mut(), &mut report, line, difference)
        };
        let mut fresh = own_report(reference, &book);
        assert_eq!((answer.number, answer.rows as usize), (0, fresh.len() / ROW), "{book:?}");
        fresh.resize(rows.len(), 0);
        assert_eq!(report, [&fresh[..], &[77]].concat(), "{book:?}");
    }
}

fn same_as_slow(reference: &mut Reference, book: &Book, random: &mut Random) {
    let all = standing(book);
    let slow = slow_tree(book.b, &all);
    let (rows, lists) = slow_loops(&slow);
    let open = slow_not_checked(&all, &lists);
    assert_eq!(open, slow_on_no_circuit(&all), "{book:?}");

    let tree: Vec<i64> = slow.tree.iter().map(|l| l.number).collect();
    assert_eq!(reference.tree(book.lent()), tree, "{book:?}");
    let mut got = vec![0; rows.len()];
    let answer = reference.survey(book.lent(), &mut got);
    let count = slow.closing.len() as i64;
    assert_eq!(answer, Answer { number: 0, place: 0, rows: count, pieces: slow.pieces });
    assert_eq!(got, rows, "{book:?}");
    for (number, list) in (1..).zip(&lists) {
        let mut out = vec![0; list.len()];
        let listed = reference.listing(book.lent(), number, &mut out);
        assert_eq!((listed.number, &out), (0, list), "{book:?}");
    }
    let all_lists = lists.concat();
    let mut out = vec![0; all_lists.len()];
    let listed = reference.listings(book.lent(), &mut out);
    assert_eq!((listed.entries, &out), (out.len() as i64, &all_lists), "{book:?}");
    let mut out = vec![0; open.len()];
    let listed = reference.not_checked(book.lent(), &mut out);
    assert_eq!((listed.entries, &out), (open.len() as i64, &open), "{book:?}");
    corrections(reference, book, &rows, random);

    let mut heights = vec![5; book.b as usize];
    let adjusted = reference.adjust(book.lent(), &mut heights);
    match slow_adjust(book, &slow.tree) {
        Err((number, place)) => {
            assert_eq!(adjusted, Adjusted { number, place, sweeps: 0 }, "{book:?}");
            assert!(heights.iter().all(|&height| height == 5), "{book:?}");
        }
        Ok((sweeps, want)) => {
            assert_eq!(adjusted, Adjusted { number: 0, place: 0, sweeps }, "{book:?}");
            assert_eq!(heights, want, "{book:?}");
        }
    }
}

#[test]
fn small_books() {
    let mut random = Random::new(1);
    let mut reference = Reference::new();
    for _ in 0..20_000 {
        let book = small_book(&mut random);
        same_as_slow(&mut reference, &book, &mut random);
        same_sketch(&mut reference, &book);
    }
}

#[test]
fn edge_books() {
    let mut random = Random::new(2);
    let mut reference = Reference::new();
    for _ in 0..200 {
        let book = edge_book(&mut random);
        same_as_slow(&mut reference, &book, &mut random);
    }
}

/// On books of every size: a corrected report equals the fresh one.
#[test]
fn corrections_of_large_books() {
    let mut random = Random::new(3);
    let mut reference = Reference::new();
    for _ in 0..2000 {
        let book = good_book(&mut random);
        let rows = own_report(&mut reference, &book);
        corrections(&mut reference, &book, &rows, &mut random);
    }
}

/// On books of every size: the sketch is the slow one.
#[test]
fn sketches_of_large_books() {
    let mut random = Random::new(4);
    let mut reference = Reference::new();
    for _ in 0..1000 {
        same_sketch(&mut reference, &good_book(&mut random));
    }
}
