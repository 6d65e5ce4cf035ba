//! The network of one book: its tree, closing lines, loops and the lines on no circuit.
//!
//! Marks and lines count from 0 in here.

use crate::paths::Search;
use crate::*;
use std::cmp::Reverse;
use std::collections::BinaryHeap;

/// The distance of a mark that has not been reached.
pub(crate) const FAR: u32 = u32::MAX / 4;
/// No line.
pub(crate) const NONE: u16 = u16::MAX;

/// A line as seen from one of its ends.
#[derive(Clone, Copy, Default)]
pub(crate) struct Arm {
    pub other: u16,
    pub line: u16,
    pub length: u32,
}

/// Lines by mark: at each mark as many places as it has standing lines.
pub(crate) struct Arms {
    start: [u16; MAX_MARKS],
    end: [u16; MAX_MARKS],
    arms: [Arm; 2 * MAX_LINES],
}

impl Arms {
    fn new() -> Self {
        Arms { start: [0; MAX_MARKS], end: [0; MAX_MARKS], arms: [Arm::default(); 2 * MAX_LINES] }
    }

    /// Makes room for so many lines at each mark, and joins none.
    fn clear(&mut self, degree: &[u16]) {
        let mut sum = 0;
        for (mark, d) in degree.iter().enumerate() {
            self.start[mark] = sum;
            self.end[mark] = sum;
            sum += d;
        }
    }

    /// The lines joined at a mark.
    #[inline]
    pub fn at(&self, mark: usize) -> &[Arm] {
        &self.arms[self.start[mark] as usize..self.end[mark] as usize]
    }

    #[inline]
    fn join(&mut self, from: u16, to: u16, line: u16, length: u32) {
        for (mark, other) in [(from as usize, to), (to as usize, from)] {
            self.arms[self.end[mark] as usize] = Arm { other, line, length };
            self.end[mark] += 1;
        }
    }
}

/// What a line of a good book allows: tolerance squared times "the larger of the length and 250". Its tolerance
/// is that of its class or, without one, the book's t.
pub fn line_allows(t: i64, line: &[i64]) -> i64 {
    let tolerance = if line[5] == NO_CLASS { t } else { TOLERANCES[line[5] as usize] };
    tolerance * tolerance * line[3].max(MIN_JUDGED)
}

/// 0 within, 1 over: "within exactly if m*m is at most 10 times the sum" of what the loop's lines allow.
pub fn verdict(allowed: i64, misclosure: i64) -> i64 {
    let (m, allowed) = (misclosure as i128, allowed as i128);
    (m * m > 10 * allowed) as i64
}

/// The order of candidates: by score, then by number.
#[inline]
fn rank(score: u32, line: u16) -> u64 {
    (score as u64) << 16 | line as u64
}

/// Room for the network of one book at a time.
pub(crate) struct Network {
    pub marks: usize,
    pub from: [u16; MAX_LINES],
    pub to: [u16; MAX_LINES],
    pub length: [u32; MAX_LINES],
    pub difference: [i64; MAX_LINES],
    allows: [i64; MAX_LINES],
    /// All standing lines.
    pub standing: Arms,
    /// The tree, and the closing lines added so far.
    pub subgraph: Arms,

    /// For each mark its distance and root, and the mark and the line by which it entered.
    pub distance: [u32; MAX_MARKS],
    pub root: [u16; MAX_MARKS],
    pub up: [u16; MAX_MARKS],
    pub up_line: [u16; MAX_MARKS],
    /// Marks in their order of entry.
    pub order: [u16; MAX_MARKS],
    /// Closing lines in their order.
    closing: [u16; MAX_LINES],
    pub rows: usize,
    pub pieces: usize,
    /// What the lines of the row that was taken last allow together.
    pub allowed: i64,
    /// Candidates by rank, and the best rank for each mark that is still out.
    candidates: BinaryHeap<Reverse<u64>>,
    best: [u64; MAX_MARKS],
    /// Ranks of the lines that close at the mark just entered.
    fresh: [u64; MAX_LINES],

    pub search: Search,
}

impl Network {
    pub fn new() -> Self {
        Network {
            marks: 0,
            from: [0; MAX_LINES],
            to: [0; MAX_LINES],
            length: [0; MAX_LINES],
            difference: [0; MAX_LINES],
            allows: [0; MAX_LINES],
            standing: Arms::new(),
            subgraph: Arms::new(),
            distance: [0; MAX_MARKS],
            root: [0; MAX_MARKS],
            up: [0; MAX_MARKS],
            up_line: [0; MAX_MARKS],
            order: [0; MAX_MARKS],
            closing: [0; MAX_LINES],
            rows: 0,
            pieces: 0,
            allowed: 0,
            candidates: BinaryHeap::with_capacity(2 * MAX_LINES),
            best: [0; MAX_MARKS],
            fresh: [0; MAX_LINES],
            search: Search::new(),
        }
    }

    /// Takes a tested book in, and grows its tree.
    pub fn load(&mut self, b: i64, t: i64, lines: &[i64]) {
        self.marks = b as usize;
        let mut degree = [0; MAX_MARKS];
        for (i, line) in lines.chunks_exact(LINE).enumerate() {
            let (from, to) = (line[0] as usize - 1, line[1] as usize - 1);
            self.from[i] = from as u16;
            self.to[i] = to as u16;
            self.difference[i] = line[2];
            self.length[i] = line[3] as u32;
            self.allows[i] = line_allows(t, line);
            degree[from] += line[4] as u16;
            degree[to] += line[4] as u16;
        }
        self.standing.clear(&degree[..self.marks]);
        self.subgraph.clear(&degree[..self.marks]);
        for (i, line) in lines.chunks_exact(LINE).enumerate() {
            if line[4] == 1 {
                self.standing.join(self.from[i], self.to[i], i as u16, self.length[i]);
            }
        }
        self.grow();
    }

    /// The tree, piece by piece from its lowest mark, and the closing lines in their order.
    fn grow(&mut self) {
        self.distance[..self.marks].fill(FAR);
        self.best[..self.marks].fill(u64::MAX);
        self.candidates.clear();
        self.rows = 0;
        self.pieces = 0;
        let mut entered = 0;
        for root in 0..self.marks {
            if self.distance[root] != FAR {
                continue;
            }
            self.pieces += 1;
            let mut next = Some((root, 0, NONE));
            while let Some((mark, distance, line)) = next {
                self.root[mark] = root as u16;
                self.order[entered] = mark as u16;
                entered += 1;
                self.enter(mark, distance, line);
                next = self.next_mark();
            }
        }
    }

    /// A mark enters by a line: its other lines become candidates or close.
    #[inline]
    fn enter(&mut self, mark: usize, distance: u32, line: u16) {
        self.distance[mark] = distance;
        self.up_line[mark] = line;
        let mut closed = 0;
        for arm in self.standing.at(mark) {
            let other = arm.other as usize;
            if self.distance[other] == FAR {
                let rank = rank(distance + arm.length, arm.line);
                if rank < self.best[other] {
                    self.best[other] = rank;
                    self.candidates.push(Reverse(rank));
                }
            } else if arm.line == line {
                self.up[mark] = arm.other;
                self.subgraph.join(mark as u16, arm.other, line, arm.length);
            } else {
                self.fresh[closed] = rank(self.distance[other] + arm.length, arm.line);
                closed += 1;
            }
        }
        self.fresh[..closed].sort_unstable();
        for &rank in &self.fresh[..closed] {
            self.closing[self.rows] = rank as u16;
            self.rows += 1;
        }
    }

    /// The far mark, score and number of the best candidate, if one is left.
    #[inline]
    fn next_mark(&mut self) -> Option<(usize, u32, u16)> {
        while let Some(Reverse(rank)) = self.candidates.pop() {
            let line = rank as u16;
            let (from, to) = (self.from[line as usize] as usize, self.to[line as usize] as usize);
            let far = if self.distance[from] == FAR { from } else { to };
            if self.distance[far] == FAR {
                return Some((far, (rank >> 16) as u32, line));
            }
        }
        None
    }

    /// Row i, from 0; each is taken once and in order. Its lines but the closing one are then in
    /// `search.path`.
    pub fn take(&mut self, i: usize) -> [i64; ROW] {
        let closing = self.closing[i];
        let k = closing as usize;
        let (from, to) = (self.from[k], self.to[k]);
        let path_length = self.find_path(from as usize, to as usize);
        let length = (path_length + self.length[k]) as i64;
        let (mut misclosure, mut allowed) = (self.difference[k], self.allows[k]);
        for &signed in self.search.path() {
            let line = signed.unsigned_abs() as usize - 1;
            let d = self.difference[line];
            misclosure += if signed > 0 { d } else { -d };
            allowed += self.allows[line];
        }
        self.allowed = allowed;
        let count = self.search.path().len() + 1;
        if count > 2 {
            self.subgraph.join(from, to, closing, self.length[k]);
        }
        [closing as i64 + 1, count as i64, length, misclosure, verdict(allowed, misclosure)]
    }

    /// The mark at which the ways of two marks to their root meet.
    fn meet(&self, mut a: usize, mut z: usize) -> usize {
        while a != z {
            if self.distance[a] >= self.distance[z] {
                a = self.up[a] as usize;
            } else {
                z = self.up[z] as usize;
            }
        }
        a
    }

    /// For each line whether it stands on no circuit.
    ///
    /// A closing line is on one. A tree line is on one exactly if the way of a closing line through the
    /// tree, up from its from end and down to its to end, runs over it.
    pub fn off_circuits(&self) -> [bool; MAX_LINES] {
        let mut over = [0i32; MAX_MARKS];
        for &closing in &self.closing[..self.rows] {
            let (from, to) =
                (self.from[closing as usize] as usize, self.to[closing as usize] as usize);
            over[from] += 1;
            over[to] += 1;
            over[self.meet(from, to)] -= 2;
        }
        let mut off = [false; MAX_LINES];
        for &mark in self.order[..self.marks].iter().rev() {
            let mark = mark as usize;
            let line = self.up_line[mark];
            if line == NONE {
                continue;
            }
            off[line as usize] = over[mark] == 0;
            over[self.up[mark] as usize] += over[mark];
        }
        off
    }
}
