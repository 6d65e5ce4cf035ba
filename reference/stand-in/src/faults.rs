//! The reference with one fault, named by LEVEL_FAULT: each a mistake that somebody might make.

use crate::writer;
use reference::trial::call::own_report;
use reference::trial::Book;
use reference::*;
use std::sync::OnceLock;

pub(crate) fn fault() -> &'static str {
    static FAULT: OnceLock<String> = OnceLock::new();
    FAULT.get_or_init(|| std::env::var("LEVEL_FAULT").unwrap_or_default())
}

/// The reference, with the fault.
pub struct Faulty(Reference);

impl Faulty {
    #[allow(clippy::new_without_default)]
    pub fn new() -> Self {
        Faulty(Reference::new())
    }

    /// Whether this is the fault.
    pub fn named(name: &str) -> bool {
        fault() == name
    }

    /// The refusal of a book that a fault gives wrongly, if it does.
    fn wrong_refusal(book: Lent) -> Option<(i64, i64)> {
        if Faulty::named("book-of-255-marks") && book.b == 256 {
            return Some((4, 0));
        }
        if Faulty::named("book-limits-before-version") && Version::of(book.version).is_none() {
            return (!(1..=MAX_MARKS as i64).contains(&book.b)).then_some((4, 0));
        }
        if Faulty::named("book-lines-before-held") {
            let survey = |book: Lent| Reference::new().survey(book, &mut [0; ROW * MAX_LINES]);
            let alone = survey(Lent { held: &[], ..book });
            if survey(book).number == 6 && alone.number == 7 {
                return Some((7, alone.place));
            }
        }
        None
    }

    /// The book as a fault reads it: without what it does not see.
    fn seen(book: Lent) -> Book {
        let mut seen = Book::of(book);
        if Faulty::named("book-mark-held-twice") {
            seen.held.clear();
            for entry in book.held.chunks(HELD) {
                if !seen.held.chunks(HELD).any(|earlier| earlier[0] == entry[0]) {
                    seen.held.extend(entry);
                }
            }
        }
        if Faulty::named("book-any-standing") {
            seen.lines.chunks_exact_mut(LINE).for_each(|line| line[4] = (line[4] != 0) as i64);
        }
        if Faulty::named("book-half-a-line") {
            seen.lines.truncate(LINE * seen.lines_count());
        }
        match fault() {
            "book-version-by-its-last-byte" => seen.version = book.version as u8 as i64,
            "book-any-tolerance-in-version-2" if book.version == 2 => seen.t = 0,
            "book-any-class-in-version-1" if book.version == 1 => {
                seen.lines.chunks_exact_mut(LINE).for_each(|line| line[5] = NO_CLASS);
            }
            "book-six-classes" if book.version == 2 => {
                seen.lines.chunks_exact_mut(LINE).for_each(|line| line[5] -= (line[5] == 5) as i64);
            }
            _ => {}
        }
        seen
    }

    /// Judges every row anew. What a line allows is told of the book's t, the closing line and the line; what is
    /// over, of the misclosure's square and ten times the sum.
    fn judge(
        &mut self,
        book: Lent,
        rows: &mut [i64],
        allows: impl Fn(i64, &[i64], &[i64]) -> i64,
        is_over: impl Fn(i128, i128) -> bool,
    ) {
        let line = |signed: i64| &book.lines[LINE * (signed.unsigned_abs() as usize - 1)..][..LINE];
        for (number, row) in (1..).zip(rows.chunks_exact_mut(ROW)) {
            let mut out = [0; MAX_LINES];
            let count = self.0.listing(book, number, &mut out).entries as usize;
            let closing = line(out[0]);
            let allowed: i64 = out[..count].iter().map(|&s| allows(book.t, closing, line(s))).sum();
            row[4] = is_over(row[3] as i128 * row[3] as i128, 10 * allowed as i128) as i64;
        }
    }
}

/// What a line allows with another class.
fn allows_as(t: i64, line: &[i64], class: i64) -> i64 {
    line_allows(t, &[&line[..5], &[class]].concat())
}

/// A book whose lines are numbered from the last to the first.
fn turned(lines: &[i64]) -> Vec<i64> {
    lines.chunks_exact(LINE).rev().flatten().copied().collect()
}

/// The book with its withdrawn lines standing.
pub(crate) fn all_standing(book: Lent) -> Book {
    let mut standing = Book::of(book);
    for line in standing.lines.chunks_exact_mut(LINE).filter(|line| line[4] == 0) {
        line[4] = 1;
    }
    standing
}

/// Sorts the links of a sketch by their junctions, and their lines with them.
fn sort_by_junctions(links: &mut [i64], run: &mut [i64]) {
    let mut sorted: Vec<(Vec<i64>, Vec<i64>)> = vec![];
    let mut begin = 0;
    for entry in links.chunks(ENTRY) {
        let end = begin + entry[2] as usize;
        sorted.push((entry.to_vec(), run[begin..end].to_vec()));
        begin = end;
    }
    sorted.sort_by_key(|(entry, _)| (entry[0], entry[1]));
    let (entries, lines): (Vec<_>, Vec<_>) = sorted.into_iter().unzip();
    links.copy_from_slice(&entries.concat());
    run[..begin].copy_from_slice(&lines.concat());
}

/// Begins the last loop of a sketch with the line that leaves its mark.
fn begin_at_mark(entry: &[i64], run: &mut [i64], lines: &[i64]) {
    let own = run.len() - entry[2] as usize;
    let leaves = |&signed: &i64| {
        let line = &lines[LINE * (signed.unsigned_abs() as usize - 1)..];
        entry[0] == if signed > 0 { line[0] } else { line[1] }
    };
    if let Some(first) = run[own..].iter().position(leaves) {
        run[own..].rotate_left(first);
    }
}

impl Level for Faulty {
    fn read(&mut self, file: &[u8], held: &mut [i64], lines: &mut [i64]) -> ReadAnswer {
        let right = self.0.read(file, held, lines);
        let refused = |number| ReadAnswer { number, ..ReadAnswer::default() };
        match fault() {
            "read-limits-before-length" if right.number == 2 => {
                let mut mended = file.to_vec();
                mended[..4].copy_from_slice(&(file.len() as u32).to_be_bytes());
                match self.0.read(&mended, &mut [], &mut []).number {
                    4 => refused(4),
                    _ => right,
                }
            }
            "read-difference-unsigned" if right.number == 0 => {
                let negative = lines.chunks_exact(LINE).take(right.n as usize).any(|l| l[2] < 0);
                if negative {
                    lines[2] = lines[2].abs();
                }
                right
            }
            "read-room-before-entries" if right.number == 6 || right.number == 7 => {
                if held.is_empty() {
                    refused(10)
                } else {
                    right
                }
            }
            "read-writes-when-refused" if right.number == 7 && !held.is_empty() => {
                held[0] = 1;
                right
            }
            "read-any-version" if right.number == 3 => {
                let mut mended = file.to_vec();
                mended[4] = 1;
                self.0.read(&mended, held, lines)
            }
            "read-any-tolerance-in-version-2" if right.number == 4 && file[4] == 2 => {
                let mut mended = file.to_vec();
                mended[5..7].fill(0);
                self.0.read(&mended, held, lines)
            }
            "read-version-when-refused" if right.number > 3 => {
                ReadAnswer { version: file[4] as i64, ..right }
            }
            "read-withdrawn-as-standing" if right.number == 0 => {
                let read = lines.chunks_exact_mut(LINE).take(right.n as usize);
                read.for_each(|line| line[4] = 1);
                right
            }
            "read-class-0-in-version-1" if right.version == 1 => {
                let read = lines.chunks_exact_mut(LINE).take(right.n as usize);
                read.for_each(|line| line[5] = 0);
                right
            }
            _ => right,
        }
    }

    fn write(&mut self, book: Lent, file: &mut [u8]) -> Written {
        writer::write(&mut self.0, book, file)
    }

    fn survey(&mut self, book: Lent, rows: &mut [i64]) -> Answer {
        if let Some((number, place)) = Faulty::wrong_refusal(book) {
            return Answer { number, place, ..Answer::default() };
        }
        let seen = Faulty::seen(book);
        let mut right = self.0.survey(seen.lent(), rows);
        let count = right.rows as usize;
        match fault() {
            "survey-equal-is-over" => {
                let allows = |t, _: &[i64], line: &[i64]| line_allows(t, line);
                self.judge(seen.lent(), &mut rows[..ROW * count], allows, |m, most| m >= most);
            }
            "survey-class-of-the-closing-line" => {
                let allows = |t, closing: &[i64], line: &[i64]| allows_as(t, line, closing[5]);
                self.judge(seen.lent(), &mut rows[..ROW * count], allows, |m, most| m > most);
            }
            "survey-class-1-as-2" => {
                let class = |line: &[i64]| if line[5] == 1 { 2 } else { line[5] };
                let allows = |t, _: &[i64], line: &[i64]| allows_as(t, line, class(line));
                self.judge(seen.lent(), &mut rows[..ROW * count], allows, |m, most| m > most);
            }
            "survey-last-row-zeros" if count > 1 => {
                rows[ROW * (count - 1)..ROW * count].fill(0);
            }
            "survey-ties-by-highest-number" if right.number == 0 => {
                self.0.survey(Lent { lines: &turned(&seen.lines), ..seen.lent() }, rows);
                let last = seen.lines_count() as i64 + 1;
                rows.chunks_exact_mut(ROW).take(count).for_each(|row| row[0] = last - row[0]);
            }
            "survey-one-piece" if right.number == 0 => right.pieces = 1,
            "survey-writes-what-fits" if right.number == 10 => rows.fill(0),
            "survey-clears-the-rest" if right.number == 0 => rows[ROW * count..].fill(0),
            _ => {}
        }
        right
    }

    fn listing(&mut self, book: Lent, number: i64, out: &mut [i64]) -> Listed {
        if Faulty::named("listing-loop-0-is-1") && number == 0 {
            return self.0.listing(book, 1, out);
        }
        let mut right = self.0.listing(book, number, out);
        match fault() {
            "listing-sense-of-last-turned" if right.entries > 4 => {
                out[right.entries as usize - 1] *= -1;
            }
            "listing-counts-when-refused" if right.number == 10 => right.entries = 2,
            _ => {}
        }
        right
    }

    fn listings(&mut self, book: Lent, out: &mut [i64]) -> Listed {
        let mut right = self.0.listings(book, out);
        match fault() {
            "listings-without-last-line" if right.number == 0 && right.entries > 2 => {
                right.entries -= 1;
                out[right.entries as usize] = 0;
            }
            "listings-writes-what-fits" if right.number == 10 => out.fill(1),
            _ => {}
        }
        right
    }

    fn not_checked(&mut self, book: Lent, out: &mut [i64]) -> Listed {
        match fault() {
            "not-checked-always-empty" => {
                let right = self.0.not_checked(book, &mut [0; MAX_LINES]);
                Listed { entries: 0, ..right }
            }
            "not-checked-with-withdrawn" => self.0.not_checked(all_standing(book).lent(), out),
            _ => self.0.not_checked(book, out),
        }
    }

    fn sketch(
        &mut self,
        book: Lent,
        links: &mut [i64],
        spurs: &mut [i64],
        loops: &mut [i64],
        run: &mut [i64],
    ) -> Sketched {
        if Faulty::named("sketch-with-withdrawn") {
            return self.0.sketch(all_standing(book).lent(), links, spurs, loops, run);
        }
        let mut right = self.0.sketch(book, links, spurs, loops, run);
        let [links_end, loops_end] = [right.links, right.loops].map(|count| ENTRY * count as usize);
        match fault() {
            "sketch-links-by-junctions" => sort_by_junctions(&mut links[..links_end], run),
            "sketch-spur-read-to-its-mark" if right.spurs > 0 => spurs[4] *= -1,
            "sketch-loop-begins-at-its-mark" if right.loops > 0 => {
                let last = &loops[loops_end - ENTRY..loops_end];
                begin_at_mark(last, &mut run[..right.run as usize], book.lines);
            }
            "sketch-clears-the-rest" if right.number == 0 => loops[loops_end..].fill(0),
            "sketch-writes-what-fits" if right.number == 10 => links.fill(0),
            "sketch-takes-a-short-run" if right.number == 10 => {
                let mut roomy = [0; MAX_LINES];
                right = self.0.sketch(book, links, spurs, loops, &mut roomy);
                if right.number == 0 {
                    run.copy_from_slice(&roomy[..run.len()]);
                }
            }
            _ => {}
        }
        right
    }

    fn rerun(
        &mut self,
        mut book: LentMut,
        report: &mut [i64],
        line: i64,
        difference: i64,
    ) -> Answer {
        let (old_lines, old_report) = (book.lines.to_vec(), report.to_vec());
        let right = self.0.rerun(book.lent_mut(), report, line, difference);
        match fault() {
            "rerun-does-nothing" => {
                book.lines.copy_from_slice(&old_lines);
                report.copy_from_slice(&old_report);
            }
            "rerun-difference-before-version"
                if right.number == 3 && difference.unsigned_abs() > MAX_DIFFERENCE as u64 =>
            {
                return Answer { number: 4, ..right };
            }
            "rerun-loses-the-class" if right.number == 0 => {
                book.lines[LINE * (line as usize - 1) + 5] = NO_CLASS;
            }
            "rerun-judges-by-t" if right.number == 0 && book.t == 0 => {
                let rows = report.chunks_exact_mut(ROW).zip(old_report.chunks_exact(ROW));
                let changed = rows.filter(|(row, old)| row[3] != old[3]);
                changed.for_each(|(row, _)| row[4] = verdict(0, row[3]));
            }
            "rerun-keeps-old-verdict" if right.number == 0 => {
                let rows = report.chunks_exact_mut(ROW).zip(old_report.chunks_exact(ROW));
                rows.for_each(|(row, old)| row[4] = old[4]);
            }
            "rerun-takes-any-report" | "rerun-misses-last-number" if right.number == 9 => {
                let fresh = own_report(&mut self.0, &Book::of(book.lent()));
                let (last, count) = (fresh.len() - 1, fresh.len());
                let tested = if fault() == "rerun-takes-any-report" { 0 } else { last };
                if report.len() >= count && report[..tested] == fresh[..tested] {
                    report[..count].copy_from_slice(&fresh);
                    return self.0.rerun(book, report, line, difference);
                }
            }
            "rerun-writes-when-refused" if right.number == 9 => {
                book.lines[LINE * (line as usize - 1) + 2] = difference;
            }
            _ => {}
        }
        right
    }

    fn withdraw(&mut self, mut book: LentMut, report: &mut [i64], line: i64) -> Answer {
        let old_report = report.to_vec();
        let mut right = self.0.withdraw(book.lent_mut(), report, line);
        let lines = book.lines;
        match fault() {
            "withdraw-keeps-vacated-row" if right.number == 0 => {
                let rows = ROW * right.rows as usize;
                report[rows..].copy_from_slice(&old_report[rows..]);
            }
            "withdraw-renumbers" if right.number == 0 => {
                let last = lines.len() - LINE;
                lines[LINE * (line as usize - 1)..].rotate_left(LINE);
                lines[last + 4] = 0;
            }
            "withdraw-loses-the-class" if right.number == 0 => {
                lines[LINE * (line as usize - 1) + 5] = NO_CLASS;
            }
            "withdraw-of-withdrawn"
                if right.number == 8 && (1..=lines.len() / LINE).contains(&(line as usize)) =>
            {
                right.number = 0;
            }
            _ => {}
        }
        right
    }

    fn adjust(&mut self, book: Lent, heights: &mut [i64]) -> Adjusted {
        let mut right = self.0.adjust(book, heights);
        match fault() {
            "adjust-one-sweep-fewer" if right.sweeps > 1 => right.sweeps -= 1,
            "adjust-last-mark-off-by-one" if right.sweeps > 20 => heights[book.b as usize - 1] += 1,
            "adjust-pieces-before-room" if right.number == 10 => {
                let roomy = self.0.adjust(book, &mut [0; MAX_MARKS]);
                if roomy.number == 11 {
                    right = roomy;
                }
            }
            _ => {}
        }
        right
    }

    fn rate(&mut self, book: Lent, heights: &[i64], line: i64) -> Rated {
        let mut right = self.0.rate(book, heights, line);
        match fault() {
            "rate-by-32-bits" if right.number == 0 => right.rate = right.rate as f32 as f64,
            "rate-withdrawn-before-heights"
                if right.number == 13 && book.lines[LINE * (line as usize - 1) + 4] == 0 =>
            {
                right = Rated { line, withdrawn: 1, ..Rated::default() };
            }
            "rate-names-refused-line" if right.number == 8 => right.line = line,
            "rate-heights-before-version" if right.number == 3 => {
                right.number = if heights.len() as i64 == book.b { 3 } else { 4 };
            }
            _ => {}
        }
        right
    }
}
