//! The junction sketch: the links between junctions, and the spurs and loops that come off before.
//!
//! Marks and lines count from 0 in here.

use crate::answers::{refuse, Refusal};
use crate::*;

/// A line as it is run: twice its number, and one more where it is run from its to to its from.
type Pass = u16;

/// The same line, run the other way.
const fn turned(pass: Pass) -> Pass {
    pass ^ 1
}

/// The pass as a line's number from 1, negative where it is run from its to to its from.
pub(crate) const fn signed(pass: Pass) -> i64 {
    let number = (pass / 2) as i64 + 1;
    if pass.is_multiple_of(2) {
        number
    } else {
        -number
    }
}

/// Lines run one after the other, from a mark to a mark. Which pass follows which is in
/// `Sketch::onward`.
#[derive(Clone, Copy)]
pub(crate) struct Link {
    from: u16,
    to: u16,
    first: Pass,
    last: Pass,
    lowest_line: u16,
    count: u16,
}

impl Link {
    fn of_line(i: usize, line: &[i64]) -> Self {
        let (from, to) = (line[0] as u16 - 1, line[1] as u16 - 1);
        let forward = 2 * i as Pass;
        Link { from, to, first: forward, last: forward, lowest_line: i as u16, count: 1 }
    }

    fn turned(self) -> Self {
        let (from, to) = (self.to, self.from);
        Link { from, to, first: turned(self.last), last: turned(self.first), ..self }
    }

    /// The link read from this one of its ends.
    fn read_from(self, mark: u16) -> Self {
        if self.from == mark {
            self
        } else {
            self.turned()
        }
    }

    fn ends_at(&self, mark: u16) -> bool {
        self.from == mark || self.to == mark
    }

    fn closes_on_itself(&self) -> bool {
        self.from == self.to
    }
}

/// Room for the sketch of one book at a time.
pub(crate) struct Sketch {
    /// What is a link, by lowest line.
    pub links: Vec<Link>,
    /// What has come off, as it went.
    pub spurs: Vec<Link>,
    pub loops: Vec<Link>,
    marks: usize,
    /// How many link ends each mark has; a link from a mark to itself has two.
    ends: [u16; MAX_MARKS],
    /// For each pass the one after it in its link. Each joint is kept both ways, so that a link can be
    /// read from either end.
    onward: [Pass; 2 * MAX_LINES],
}

impl Sketch {
    pub fn new() -> Self {
        Sketch {
            links: Vec::with_capacity(MAX_LINES),
            spurs: Vec::with_capacity(MAX_LINES),
            loops: Vec::with_capacity(MAX_LINES),
            marks: 0,
            ends: [0; MAX_MARKS],
            onward: [0; 2 * MAX_LINES],
        }
    }

    /// Sketches a tested book: step by step until none is left, then each link from its lower junction.
    pub fn draw(&mut self, b: i64, lines: &[i64]) {
        self.begin(b, lines);
        while self.step() {}
        for link in &mut self.links {
            *link = link.read_from(link.from.min(link.to));
        }
    }

    /// Every standing line is a link of its own.
    fn begin(&mut self, b: i64, lines: &[i64]) {
        self.marks = b as usize;
        self.ends[..self.marks].fill(0);
        self.links.clear();
        self.spurs.clear();
        self.loops.clear();
        for (i, line) in lines.chunks_exact(LINE).enumerate() {
            if line[4] == 1 {
                let link = Link::of_line(i, line);
                self.ends[link.from as usize] += 1;
                self.ends[link.to as usize] += 1;
                self.links.push(link);
            }
        }
    }

    /// Takes the first step there is, and tells whether there was one.
    fn step(&mut self) -> bool {
        if let Some(mark) = self.lowest_with(1) {
            self.take_spur(mark);
        } else if let Some(place) = self.links.iter().position(Link::closes_on_itself) {
            self.take_loop(place);
        } else if let Some(mark) = self.lowest_with(2) {
            // No link closes on itself by now: the two ends are of two links.
            self.merge(mark);
        } else {
            return false;
        }
        true
    }

    /// The lowest mark that has so many link ends.
    fn lowest_with(&self, ends: u16) -> Option<u16> {
        self.ends[..self.marks].iter().position(|&e| e == ends).map(|mark| mark as u16)
    }

    fn take_off(&mut self, place: usize) -> Link {
        let link = self.links.remove(place);
        self.ends[link.from as usize] -= 1;
        self.ends[link.to as usize] -= 1;
        link
    }

    /// The only link of a mark comes off, read from that mark.
    fn take_spur(&mut self, mark: u16) {
        if let Some(place) = self.links.iter().position(|link| link.ends_at(mark)) {
            let link = self.take_off(place);
            self.spurs.push(link.read_from(mark));
        }
    }

    /// A link from a mark to itself comes off, begun with its lowest line, forward.
    fn take_loop(&mut self, place: usize) {
        let link = self.take_off(place);
        self.join(link.last, link.first);
        self.loops.push(Link { first: 2 * link.lowest_line, ..link });
    }

    /// The two links of a mark become one, in the place of the earlier, which has the lower line.
    fn merge(&mut self, mark: u16) {
        let mut places = (0..self.links.len()).filter(|&place| self.links[place].ends_at(mark));
        if let (Some(place), Some(later)) = (places.next(), places.next()) {
            let to_mark = self.links[place].read_from(mark).turned();
            let from_mark = self.links.remove(later).read_from(mark);
            self.join(to_mark.last, from_mark.first);
            self.links[place] = Link {
                to: from_mark.to,
                last: from_mark.last,
                count: to_mark.count + from_mark.count,
                ..to_mark
            };
            self.ends[mark as usize] = 0;
        }
    }

    /// One pass follows another and, the other way, the turned ones do.
    fn join(&mut self, pass: Pass, next: Pass) {
        self.onward[pass as usize] = next;
        self.onward[turned(next) as usize] = turned(pass);
    }

    /// The passes of a link, spur or loop in their order.
    pub fn passes(&self, link: &Link) -> impl Iterator<Item = Pass> + '_ {
        let onward = |&pass: &Pass| Some(self.onward[pass as usize]);
        std::iter::successors(Some(link.first), onward).take(link.count as usize)
    }

    /// First mark, last mark, count of lines, length and difference of a link, spur or loop.
    pub fn entry(&self, link: &Link, lines: &[i64]) -> [i64; ENTRY] {
        let (mut length, mut difference) = (0, 0);
        for pass in self.passes(link) {
            let line = &lines[LINE * (pass / 2) as usize..][..LINE];
            length += line[3];
            difference += signed(pass).signum() * line[2];
        }
        [link.from as i64 + 1, link.to as i64 + 1, link.count as i64, length, difference]
    }

    /// Links, spurs, loops, and lines in all of them.
    fn counts(&self) -> [usize; 4] {
        let lists = [&self.links, &self.spurs, &self.loops];
        let run = lists.into_iter().flatten().map(|link| link.count as usize).sum();
        let [links, spurs, loops] = lists.map(Vec::len);
        [links, spurs, loops, run]
    }

    /// Writes a list, five numbers to an entry, and its lines into `run`; gives what is left of `run`.
    fn write<'a>(
        &self,
        list: &[Link],
        lines: &[i64],
        entries: &mut [i64],
        mut run: &'a mut [i64],
    ) -> &'a mut [i64] {
        for (link, entry) in list.iter().zip(entries.chunks_exact_mut(ENTRY)) {
            entry.copy_from_slice(&self.entry(link, lines));
            let (own, rest) = run.split_at_mut(link.count as usize);
            for (place, pass) in own.iter_mut().zip(self.passes(link)) {
                *place = signed(pass);
            }
            run = rest;
        }
        run
    }
}

/// Fills links, spurs, loops and run of a book; gives how many of each there are.
pub(crate) fn sketch(
    sketch: &mut Sketch,
    book: Lent,
    [links, spurs, loops, run]: [&mut [i64]; 4],
) -> Result<[usize; 4], Refusal> {
    book.test()?;
    sketch.draw(book.b, book.lines);
    let counts = sketch.counts();
    let needs = [ENTRY * counts[0], ENTRY * counts[1], ENTRY * counts[2], counts[3]];
    let places = [links.len(), spurs.len(), loops.len(), run.len()];
    if places.iter().zip(needs).any(|(&places, need)| places < need) {
        return refuse(10);
    }
    let run = sketch.write(&sketch.links, book.lines, links, run);
    let run = sketch.write(&sketch.spurs, book.lines, spurs, run);
    sketch.write(&sketch.loops, book.lines, loops, run);
    Ok(counts)
}
