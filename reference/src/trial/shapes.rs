//! Good books of every shape.

use super::random::Random;
use super::Book;
use crate::*;

/// Marks, and the pairs of them that lines join.
#[derive(Clone, Debug)]
pub struct Shape {
    pub marks: i64,
    pub pairs: Vec<(i64, i64)>,
}

impl Shape {
    /// Marks without lines.
    pub fn apart(marks: i64) -> Self {
        Shape { marks, pairs: vec![] }
    }

    pub fn chain(marks: i64) -> Self {
        Shape { marks, pairs: (2..=marks).map(|m| (m - 1, m)).collect() }
    }

    pub fn star(marks: i64) -> Self {
        Shape { marks, pairs: (2..=marks).map(|m| (1, m)).collect() }
    }

    pub fn tree(random: &mut Random, marks: i64) -> Self {
        Shape { marks, pairs: (2..=marks).map(|m| (random.within(1, m - 1), m)).collect() }
    }

    /// Marks joined one after the other and the last with the first; two marks by two lines.
    pub fn ring(marks: i64) -> Self {
        let mut ring = Shape::chain(marks);
        if marks > 1 {
            ring.pairs.push((marks, 1));
        }
        ring
    }

    /// Every line once more.
    pub fn doubled(mut self) -> Self {
        self.pairs.extend_from_within(..);
        self
    }

    /// Two rings of so many marks, joined by rungs from each mark of a first part to its opposite.
    pub fn rings_with_rungs(marks: i64, rungs: i64) -> Self {
        let mut both = Shape::ring(marks).beside(Shape::ring(marks));
        both.pairs.extend((1..=rungs.min(marks)).map(|m| (m, marks + m)));
        both
    }

    pub fn grid(rows: i64, columns: i64) -> Self {
        let mut pairs = vec![];
        for mark in 1..=rows * columns {
            if mark % columns != 0 {
                pairs.push((mark, mark + 1));
            }
            if mark + columns <= rows * columns {
                pairs.push((mark, mark + columns));
            }
        }
        Shape { marks: rows * columns, pairs }
    }

    /// So many lines between two marks.
    pub fn parallel(lines: usize) -> Self {
        Shape { marks: 2, pairs: vec![(1, 2); lines] }
    }

    /// Every pair of marks.
    pub fn dense(marks: i64) -> Self {
        let pairs = (1..=marks).flat_map(|m| (m + 1..=marks).map(move |o| (m, o))).collect();
        Shape { marks, pairs }
    }

    /// So many more lines between any marks.
    pub fn with_lines(mut self, random: &mut Random, lines: usize) -> Self {
        for _ in 0..if self.marks > 1 { lines } else { 0 } {
            let from = random.within(1, self.marks);
            let to = random.within(1, self.marks - 1);
            self.pairs.push((from, to + (to >= from) as i64));
        }
        self
    }

    /// So many more marks, each set into a line.
    pub fn with_marks(mut self, random: &mut Random, marks: i64) -> Self {
        for _ in 0..if self.pairs.is_empty() { 0 } else { marks } {
            let line = random.below(self.pairs.len());
            self.marks += 1;
            let to = std::mem::replace(&mut self.pairs[line].1, self.marks);
            self.pairs.push((self.marks, to));
        }
        self
    }

    /// So many junctions with links between them, and marks set into the links until there are so many.
    pub fn links(random: &mut Random, junctions: i64, marks: i64) -> Self {
        let links = Shape::apart(junctions).with_lines(random, 3 * junctions as usize);
        links.with_marks(random, marks - junctions)
    }

    /// Rings and tails, each hung at a mark that is there before it.
    pub fn hung(random: &mut Random, marks: i64) -> Self {
        let mut shape = Shape::apart(1);
        while shape.marks < marks {
            let at = random.within(1, shape.marks);
            let (first, last) = (shape.marks + 1, marks.min(shape.marks + random.within(1, 3)));
            shape.pairs.push((at, first));
            shape.pairs.extend((first..last).map(|mark| (mark, mark + 1)));
            if !random.once_in(3) {
                shape.pairs.push((last, at));
            }
            shape.marks = last;
        }
        shape
    }

    /// Another shape beside this one, as further pieces.
    pub fn beside(mut self, other: Shape) -> Self {
        let first = self.marks;
        self.marks += other.marks;
        self.pairs.extend(other.pairs.iter().map(|&(from, to)| (from + first, to + first)));
        self
    }

    /// Marks and lines within the limits of a book.
    fn limited(mut self) -> Self {
        self.marks = self.marks.min(MAX_MARKS as i64);
        let marks = self.marks;
        self.pairs.retain(|&(from, to)| from <= marks && to <= marks);
        self.pairs.truncate(MAX_LINES);
        self
    }

    /// Marks numbered anew, lines turned and in another order.
    pub fn mixed(mut self, random: &mut Random) -> Self {
        let mut number: Vec<i64> = (1..=self.marks).collect();
        random.shuffle(&mut number);
        let new = |mark: i64| number[mark as usize - 1];
        for pair in &mut self.pairs {
            let (from, to) = (new(pair.0), new(pair.1));
            *pair = if random.once_in(2) { (from, to) } else { (to, from) };
        }
        random.shuffle(&mut self.pairs);
        self
    }
}

/// A shape of about so many marks.
fn one_shape(random: &mut Random, marks: i64) -> Shape {
    let lines = 2 * marks as usize;
    match random.below(16) {
        0 => Shape::apart(marks),
        1 => Shape::chain(marks),
        2 => Shape::star(marks),
        3 => Shape::tree(random, marks),
        4 => Shape::ring(marks),
        5 => Shape::ring(marks).doubled(),
        6 => Shape::rings_with_rungs((marks + 1) / 2, random.within(1, marks)),
        7 => Shape::grid(random.within(1, 4), (marks + 3) / 4),
        8 => Shape::parallel(random.below(lines + 1)),
        9 => Shape::dense(marks.min(33)),
        10 => Shape::tree(random, marks).with_lines(random, marks as usize / 2),
        11 => Shape::star(marks).doubled(),
        12 => Shape::hung(random, marks),
        13 => Shape::links(random, (marks + 2) / 3, marks),
        _ => {
            let count = random.below(lines + 2);
            Shape::apart(marks).with_lines(random, count)
        }
    }
}

/// One to three shapes beside each other.
fn any_shape(random: &mut Random) -> Shape {
    let most = random.pick(&[3, 4, 6, 6, 8, 8, 12, 20, 40, 256]);
    let marks = random.within(1, most);
    let mut shape = one_shape(random, marks);
    while random.once_in(3) {
        let marks = random.within(1, 6);
        shape = shape.beside(one_shape(random, marks));
    }
    if random.once_in(2) {
        shape = shape.mixed(random);
    }
    shape
}

/// As large as a book can be.
fn full_shape(random: &mut Random) -> Shape {
    match random.below(9) {
        0 => Shape::tree(random, 256).with_lines(random, 257),
        1 => Shape::ring(256).doubled(),
        2 => Shape::rings_with_rungs(128, 128).with_lines(random, 128),
        3 => Shape::grid(16, 16).with_lines(random, 32),
        4 => Shape::dense(33),
        5 => Shape::star(256).doubled(),
        6 => Shape::hung(random, 256),
        7 => Shape::links(random, 128, 256),
        _ => Shape::parallel(512).beside(Shape::apart(254)),
    }
    .mixed(random)
}

/// Lengths by one of several habits, so that many scores and paths tie.
fn lengths(random: &mut Random, lines: usize) -> Vec<i64> {
    let habit = random.below(8);
    let one = random.pick(&[10, 1000, 100_000]);
    let mut length = || match habit {
        0 | 1 => one,
        2 => 10 * random.within(1, 2),
        3 => 10 * random.within(1, 3),
        4 => random.within(10, 40),
        5 => random.pick(&[10, 11, 20, 99_990, 100_000]),
        6 => random.within(500, 3000),
        _ => random.within(MIN_LENGTH, MAX_LENGTH),
    };
    (0..lines).map(|_| length()).collect()
}

/// Heights by one of several habits: of marks that lines and held entries are then made from.
fn true_heights(random: &mut Random, marks: i64) -> Vec<i64> {
    let habit = random.below(4);
    let mut height = || match habit {
        0 => 0,
        1 => random.within(-100_000, 100_000),
        2 => random.within(-40_000_000, 40_000_000),
        _ => random.within(-MAX_HELD_HEIGHT, MAX_HELD_HEIGHT),
    };
    (0..marks).map(|_| height()).collect()
}

/// A line's difference by one of several habits. By one the error is about what a line of the middle class
/// allows, so that other classes make another verdict.
fn difference(random: &mut Random, habit: usize, rise: i64, length: i64) -> i64 {
    let error = 100 * (10 * length.max(MIN_JUDGED)).isqrt();
    let difference = match habit {
        0 => 0,
        1 => random.within(-1000, 1000),
        2 => rise + random.within(-3000, 3000),
        3 | 6 => rise + random.within(-error, error),
        4 => rise,
        5 => random.pick(&[-MAX_DIFFERENCE, MAX_DIFFERENCE]),
        _ => random.within(-MAX_DIFFERENCE, MAX_DIFFERENCE),
    };
    difference.clamp(-MAX_DIFFERENCE, MAX_DIFFERENCE)
}

/// Which marks are held: none, one of each piece, some, all.
fn held_marks(random: &mut Random, b: i64, lines: &[i64]) -> Vec<i64> {
    let habit = random.below(8);
    let roots = roots(b, lines);
    let mut marks: Vec<i64> = match habit {
        0 => vec![],
        1 => (1..=b).filter(|_| random.once_in(3)).collect(),
        2 => (1..=b).collect(),
        3 => vec![random.within(1, b)],
        4 => (1..=b).filter(|&m| roots[m as usize - 1] == m || random.once_in(4)).collect(),
        5 => one_of_each_piece(random, &roots),
        _ => (1..=b).filter(|&m| roots[m as usize - 1] == m).collect(),
    };
    if random.once_in(2) {
        random.shuffle(&mut marks);
    }
    marks
}

/// The lowest mark of each mark's piece, for marks 1 to b.
pub fn roots(b: i64, lines: &[i64]) -> Vec<i64> {
    let mut root: Vec<i64> = (1..=b).collect();
    let mut changed = true;
    while changed {
        changed = false;
        for line in lines.chunks_exact(LINE).filter(|line| line[4] == 1) {
            let (from, to) = (line[0] as usize - 1, line[1] as usize - 1);
            let low = root[from].min(root[to]);
            changed |= root[from] != low || root[to] != low;
            root[from] = low;
            root[to] = low;
        }
    }
    root
}

fn one_of_each_piece(random: &mut Random, roots: &[i64]) -> Vec<i64> {
    let mut marks: Vec<i64> = (1..=roots.len() as i64).collect();
    random.shuffle(&mut marks);
    let mut taken = vec![false; roots.len() + 1];
    marks.retain(|&m| !std::mem::replace(&mut taken[roots[m as usize - 1] as usize], true));
    marks
}

/// The book in version 2, its lines with classes by one of several habits.
fn classed(random: &mut Random, book: Book) -> Book {
    let any = |random: &mut Random| random.below(TOLERANCES.len()) as i64;
    let (one, other) = (any(random), any(random));
    let habit = random.below(4);
    book.classed(|_| match habit {
        0 => one,
        1 => random.pick(&[one, other]),
        _ => any(random),
    })
}

/// The book, in half of the cases in version 2.
fn of_either_version(random: &mut Random, book: Book) -> Book {
    if random.once_in(2) {
        classed(random, book)
    } else {
        book
    }
}

/// A shape made a good book: lengths, differences, standing, tolerances and held entries.
fn finished(random: &mut Random, shape: Shape) -> Book {
    let shape = shape.limited();
    let heights = true_heights(random, shape.marks);
    let lengths = lengths(random, shape.pairs.len());
    let habit = random.below(8);
    let withdrawn_once_in = random.pick(&[0, 0, 0, 0, 8, 3, 1]);
    let mut lines = Vec::with_capacity(LINE * shape.pairs.len());
    for (&(from, to), length) in shape.pairs.iter().zip(lengths) {
        let rise = heights[to as usize - 1] - heights[from as usize - 1];
        let difference = difference(random, habit, rise, length);
        let standing = withdrawn_once_in == 0 || !random.once_in(withdrawn_once_in);
        lines.extend([from, to, difference, length, standing as i64, NO_CLASS]);
    }
    let extreme = random.once_in(6);
    let mut held = vec![];
    for mark in held_marks(random, shape.marks, &lines) {
        let height = if extreme {
            random.pick(&[-MAX_HELD_HEIGHT, MAX_HELD_HEIGHT])
        } else {
            heights[mark as usize - 1]
        };
        held.extend([mark, height]);
    }
    let any = random.within(1, MAX_TOLERANCE);
    let t = random.pick(&[1, 2, 40, 120, MAX_TOLERANCE, any]);
    of_either_version(random, Book { version: 1, b: shape.marks, t, held, lines })
}

/// Lengths of a ring that is judged by 10 times a square: a square number of short lines, or a few of them and a
/// line that completes the square. Where all have one tolerance, the allowable is then a whole number.
fn square_lengths(random: &mut Random) -> Vec<i64> {
    let short = |random: &mut Random| random.pick(&[MIN_LENGTH, 40, MIN_JUDGED - 1, MIN_JUDGED]);
    if random.below(2) == 0 {
        let side = random.pick(&[2, 2, 3, 4, 5, 15]);
        return (0..side * side).map(|_| short(random)).collect();
    }
    let (others, root) = (random.within(1, 5), random.within(13, 100));
    let mut lengths = vec![10 * root * root - others * MIN_JUDGED];
    lengths.extend((0..others).map(|_| short(random)));
    lengths
}

/// One ring whose misclosure is at the edge of the allowable, or one micrometre off it.
pub fn edge_book(random: &mut Random) -> Book {
    let lengths = square_lengths(random);
    let marks = lengths.len() as i64;
    let t = random.pick(&[1, 40, 120, 999, MAX_TOLERANCE]);
    let pairs = Shape::ring(marks).pairs.into_iter().zip(lengths);
    let lines = pairs.flat_map(|((from, to), length)| [from, to, 0, length, 1, NO_CLASS]).collect();
    let book = Book { version: 1, b: marks, t, held: vec![1, 0], lines };
    let mut book = of_either_version(random, book);
    let allowed: i64 = book.lines.chunks_exact(LINE).map(|line| line_allows(book.t, line)).sum();
    book.lines[2] = (10 * allowed).isqrt() * random.pick(&[-1, 1]) + random.pick(&[-1, 0, 0, 1]);
    book
}

/// A book with 512 lines and every mark held, whose file is as long as one of its version can be: 8,717 bytes, in
/// version 2 9,741. Some heights are at their limits.
pub fn largest_book(random: &mut Random) -> Book {
    let shape = Shape::tree(random, 256).with_lines(random, 257).mixed(random);
    let mut book = finished(random, shape);
    let mut height = || match random.below(4) {
        0 => random.pick(&[-MAX_HELD_HEIGHT, MAX_HELD_HEIGHT]),
        _ => random.within(-1000, 1000),
    };
    book.held = (1..=book.b).flat_map(|mark| [mark, height()]).collect();
    book
}

/// The book whose loops have the most lines in all: 256 marks in a chain of short lines, and 257 long lines from
/// its last mark to its first, each of which closes a loop by the whole chain.
pub fn longest_listings() -> Book {
    let marks = MAX_MARKS as i64;
    let chain = (1..marks).flat_map(|m| [m, m + 1, 0, MIN_LENGTH, 1, NO_CLASS]);
    let closing = [marks, 1, 0, MAX_LENGTH, 1, NO_CLASS].repeat(MAX_LINES + 1 - MAX_MARKS);
    let lines = chain.chain(closing).collect();
    Book { version: 1, b: marks, t: 60, held: vec![1, 0], lines }
}

/// A good book of any shape; a full one now and then.
pub fn good_book(random: &mut Random) -> Book {
    match random.below(40) {
        0 => {
            let shape = full_shape(random);
            finished(random, shape)
        }
        1..=4 => edge_book(random),
        5 if random.once_in(10) => of_either_version(random, longest_listings()),
        6 => largest_book(random),
        _ => {
            let shape = any_shape(random);
            finished(random, shape)
        }
    }
}

/// A good book of at most eight marks with at most twelve lines and many ties.
pub fn small_book(random: &mut Random) -> Book {
    let marks = random.within(1, 8);
    let shape = one_shape(random, marks).mixed(random);
    let mut book = finished(random, shape);
    book.lines.truncate(12 * LINE);
    book
}
