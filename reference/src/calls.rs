//! The calls: survey, listings, re-run and withdrawal here, the others from their own files.

use crate::answers::{refuse, Refusal};
use crate::book::within;
use crate::network::Network;
use crate::sketch::Sketch;
use crate::*;

/// The reference implementation: room for the work of one call.
pub struct Reference {
    pub(crate) network: Box<Network>,
    sketch: Box<Sketch>,
    /// Rows that have the line of a re-run, each with the sense in which they run it and what their lines allow.
    touched: Vec<(usize, i64, i64)>,
    /// The lines of all loops, one loop after the other.
    listed: Vec<i64>,
}

impl Default for Reference {
    fn default() -> Self {
        Self::new()
    }
}

/// Rows and pieces of a book.
type Counts = (usize, usize);

impl Reference {
    pub fn new() -> Self {
        Reference {
            network: Box::new(Network::new()),
            sketch: Box::new(Sketch::new()),
            touched: Vec::with_capacity(MAX_LINES),
            listed: Vec::with_capacity(MAX_LISTED),
        }
    }

    fn counts(&self) -> Counts {
        (self.network.rows, self.network.pieces)
    }

    /// Works every row out into the lent ones.
    fn fill(&mut self, rows: &mut [i64]) {
        for (i, row) in rows.chunks_exact_mut(ROW).take(self.network.rows).enumerate() {
            row.copy_from_slice(&self.network.take(i));
        }
    }

    fn try_survey(&mut self, book: Lent, rows: &mut [i64]) -> Result<Counts, Refusal> {
        book.test()?;
        self.network.load(book.b, book.t, book.lines);
        if rows.len() < ROW * self.network.rows {
            return refuse(10);
        }
        self.fill(rows);
        Ok(self.counts())
    }

    fn try_listing(&mut self, book: Lent, number: i64, out: &mut [i64]) -> Result<usize, Refusal> {
        book.test()?;
        self.network.load(book.b, book.t, book.lines);
        if number < 1 || number > self.network.rows as i64 {
            return refuse(8);
        }
        let mut row = [0; ROW];
        for i in 0..number as usize {
            row = self.network.take(i);
        }
        let count = row[1] as usize;
        if out.len() < count {
            return refuse(10);
        }
        out[0] = row[0];
        for (place, &signed) in out[1..].iter_mut().zip(self.network.search.path()) {
            *place = signed as i64;
        }
        Ok(count)
    }

    fn try_listings(&mut self, book: Lent, out: &mut [i64]) -> Result<usize, Refusal> {
        book.test()?;
        self.network.load(book.b, book.t, book.lines);
        self.listed.clear();
        for i in 0..self.network.rows {
            let [closing, ..] = self.network.take(i);
            self.listed.push(closing);
            self.listed.extend(self.network.search.path().iter().map(|&signed| signed as i64));
        }
        let count = self.listed.len();
        if out.len() < count {
            return refuse(10);
        }
        out[..count].copy_from_slice(&self.listed);
        Ok(count)
    }

    fn try_not_checked(&mut self, book: Lent, out: &mut [i64]) -> Result<usize, Refusal> {
        book.test()?;
        self.network.load(book.b, book.t, book.lines);
        let off = self.network.off_circuits();
        let count = off.iter().filter(|&&is_off| is_off).count();
        if out.len() < count {
            return refuse(10);
        }
        let numbers = off.iter().zip(1..).filter(|(&is_off, _)| is_off).map(|(_, number)| number);
        for (place, number) in out.iter_mut().zip(numbers) {
            *place = number;
        }
        Ok(count)
    }

    /// 9, of the lent report of the loaded book; `each` is called with every row's number from 0 and
    /// the network that has just taken it.
    fn test_report(
        &mut self,
        report: &[i64],
        mut each: impl FnMut(usize, i64, &Network),
    ) -> Result<(), Refusal> {
        if report.len() < ROW * self.network.rows {
            return refuse(9);
        }
        for i in 0..self.network.rows {
            let row = self.network.take(i);
            if report[ROW * i..][..ROW] != row {
                return refuse(9);
            }
            each(i, row[0], &self.network);
        }
        Ok(())
    }

    fn try_rerun(
        &mut self,
        book: Lent,
        report: &[i64],
        line: i64,
        difference: i64,
    ) -> Result<Counts, Refusal> {
        book.test_beside(within(difference, MAX_DIFFERENCE))?;
        book.test_standing(line)?;
        self.network.load(book.b, book.t, book.lines);
        let mut touched = std::mem::take(&mut self.touched);
        touched.clear();
        let tested = self.test_report(report, |i, closing, network| {
            let path = network.search.path();
            if closing == line || path.contains(&(line as i32)) {
                touched.push((i, 1, network.allowed));
            } else if path.contains(&-(line as i32)) {
                touched.push((i, -1, network.allowed));
            }
        });
        self.touched = touched;
        tested?;
        Ok(self.counts())
    }

    fn try_withdraw(&mut self, book: Lent, report: &[i64], line: i64) -> Result<Counts, Refusal> {
        book.test()?;
        book.test_standing(line)?;
        self.network.load(book.b, book.t, book.lines);
        self.test_report(report, |_, _, _| {})?;
        Ok(self.counts())
    }

    /// The report program's text for a file; at most 16,384 bytes of it count.
    pub fn report(&mut self, file: &[u8]) -> Vec<u8> {
        text::report(&mut self.network, file)
    }

    /// The sketch program's text for a file; at most 16,384 bytes of it count.
    pub fn sketch_text(&mut self, file: &[u8]) -> Vec<u8> {
        text::sketch(&mut self.sketch, file)
    }

    /// Tree lines of a good book in their order of entry; of a refused one none.
    pub fn tree(&mut self, book: Lent) -> Vec<i64> {
        if book.test().is_err() {
            return Vec::new();
        }
        self.network.load(book.b, book.t, book.lines);
        let network = &self.network;
        let entered = network.order[..network.marks].iter().map(|&m| network.up_line[m as usize]);
        entered.filter(|&line| line != network::NONE).map(|line| line as i64 + 1).collect()
    }
}

fn answer(counts: Result<Counts, Refusal>) -> Answer {
    match counts {
        Ok((rows, pieces)) => {
            Answer { rows: rows as i64, pieces: pieces as i64, ..Answer::default() }
        }
        Err(Refusal { number, place }) => Answer { number, place, ..Answer::default() },
    }
}

fn listed(count: Result<usize, Refusal>) -> Listed {
    match count {
        Ok(entries) => Listed { entries: entries as i64, ..Listed::default() },
        Err(Refusal { number, place }) => Listed { number, place, ..Listed::default() },
    }
}

impl Level for Reference {
    fn read(&mut self, file: &[u8], held: &mut [i64], lines: &mut [i64]) -> ReadAnswer {
        match file::read(file, held, lines) {
            Ok(head) => ReadAnswer {
                number: 0,
                place: 0,
                version: head.version.number,
                b: head.b,
                t: head.t,
                h: head.h as i64,
                n: head.n as i64,
            },
            Err(Refusal { number, place }) => ReadAnswer { number, place, ..ReadAnswer::default() },
        }
    }

    fn write(&mut self, book: Lent, file: &mut [u8]) -> Written {
        match file::write(book, file) {
            Ok(bytes) => Written { number: 0, place: 0, bytes: bytes as i64 },
            Err(Refusal { number, place }) => Written { number, place, bytes: 0 },
        }
    }

    fn survey(&mut self, book: Lent, rows: &mut [i64]) -> Answer {
        answer(self.try_survey(book, rows))
    }

    fn listing(&mut self, book: Lent, number: i64, out: &mut [i64]) -> Listed {
        listed(self.try_listing(book, number, out))
    }

    fn listings(&mut self, book: Lent, out: &mut [i64]) -> Listed {
        listed(self.try_listings(book, out))
    }

    fn not_checked(&mut self, book: Lent, out: &mut [i64]) -> Listed {
        listed(self.try_not_checked(book, out))
    }

    fn sketch(
        &mut self,
        book: Lent,
        links: &mut [i64],
        spurs: &mut [i64],
        loops: &mut [i64],
        run: &mut [i64],
    ) -> Sketched {
        match sketch::sketch(&mut self.sketch, book, [links, spurs, loops, run]) {
            Ok(counts) => {
                let [links, spurs, loops, run] = counts.map(|count| count as i64);
                Sketched { number: 0, place: 0, links, spurs, loops, run }
            }
            Err(Refusal { number, place }) => Sketched { number, place, ..Sketched::default() },
        }
    }

    /// Sets the line's difference, and mends the rows of the kept report that have the line.
    fn rerun(&mut self, book: LentMut, report: &mut [i64], line: i64, difference: i64) -> Answer {
        let counts = self.try_rerun(book.lent(), report, line, difference);
        if counts.is_ok() {
            let kept = &mut book.lines[LINE * (line as usize - 1) + 2];
            let change = difference - *kept;
            *kept = difference;
            for &(i, sense, allowed) in &self.touched {
                let row = &mut report[ROW * i..][..ROW];
                row[3] += sense * change;
                row[4] = verdict(allowed, row[3]);
            }
        }
        answer(counts)
    }

    /// Sets the line's standing to 0, and works the kept report out afresh.
    fn withdraw(&mut self, book: LentMut, report: &mut [i64], line: i64) -> Answer {
        let before = match self.try_withdraw(book.lent(), report, line) {
            Ok((rows, _)) => rows,
            refused => return answer(refused),
        };
        book.lines[LINE * (line as usize - 1) + 4] = 0;
        self.network.load(book.b, book.t, book.lines);
        self.fill(report);
        report[ROW * self.network.rows..ROW * before].fill(0);
        answer(Ok(self.counts()))
    }

    fn adjust(&mut self, book: Lent, heights: &mut [i64]) -> Adjusted {
        match adjust::adjust(&mut self.network, book, heights) {
            Ok(sweeps) => Adjusted { number: 0, place: 0, sweeps },
            Err(Refusal { number, place }) => Adjusted { number, place, sweeps: 0 },
        }
    }

    fn rate(&mut self, book: Lent, heights: &[i64], line: i64) -> Rated {
        match adjust::rate(book, heights, line) {
            Ok(rated) => rated,
            Err(Refusal { number, place }) => Rated { number, place, ..Rated::default() },
        }
    }
}
