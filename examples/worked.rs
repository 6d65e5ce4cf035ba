// Reads a book file, surveys it, runs line 6 again and withdraws line 3; then a book of version 2. examples/run builds and
// runs this.
use std::process::ExitCode;

#[repr(C)]
struct ReadAnswer {
    number: i64,
    place: i64,
    version: i64,
    b: i64,
    t: i64,
    h: i64,
    n: i64,
}

#[repr(C)]
struct Answer {
    number: i64,
    place: i64,
    rows: i64,
    pieces: i64,
}

// A slice is a pointer and a count of elements, as include/level.h says.
#[rustfmt::skip]
#[link(name = "level", kind = "static")]
extern "C" {
    fn level_read(file: *const u8, bytes: usize, held: *mut i64, held_count: usize, lines: *mut i64, lines_count: usize) -> ReadAnswer;
    fn level_survey(version: i64, b: i64, t: i64, held: *const i64, held_count: usize, lines: *const i64, lines_count: usize,
                    rows: *mut i64, rows_count: usize) -> Answer;
    fn level_rerun(version: i64, b: i64, t: i64, held: *const i64, held_count: usize, lines: *mut i64, lines_count: usize,
                   report: *mut i64, report_count: usize, line: i64, difference: i64) -> Answer;
    fn level_withdraw(version: i64, b: i64, t: i64, held: *const i64, held_count: usize, lines: *mut i64, lines_count: usize,
                      report: *mut i64, report_count: usize, line: i64) -> Answer;
}

/// A book with its kept report.
struct Book {
    version: i64,
    b: i64,
    t: i64,
    held: Vec<i64>,
    lines: Vec<i64>,
    report: Vec<i64>,
}

impl Book {
    fn read(file: &[u8]) -> (ReadAnswer, Book) {
        let (mut held, mut lines) = (vec![0; 2 * 256], vec![0; 6 * 512]);
        let (h, l) = (held.as_mut_ptr(), lines.as_mut_ptr());
        let r = unsafe { level_read(file.as_ptr(), file.len(), h, held.len(), l, lines.len()) };
        held.truncate(2 * r.h as usize);
        lines.truncate(6 * r.n as usize);
        let report = vec![0; 5 * r.n as usize];
        let (version, b, t) = (r.version, r.b, r.t);
        (r, Book { version, b, t, held, lines, report })
    }

    fn survey(&mut self) -> Answer {
        let (h, l, r) = (self.held.as_ptr(), self.lines.as_ptr(), self.report.as_mut_ptr());
        let (hs, ls, rs) = (self.held.len(), self.lines.len(), self.report.len());
        unsafe { level_survey(self.version, self.b, self.t, h, hs, l, ls, r, rs) }
    }

    fn rerun(&mut self, line: i64, difference: i64) -> Answer {
        let (h, l, r) = (self.held.as_ptr(), self.lines.as_mut_ptr(), self.report.as_mut_ptr());
        let (hs, ls, rs) = (self.held.len(), self.lines.len(), self.report.len());
        unsafe { level_rerun(self.version, self.b, self.t, h, hs, l, ls, r, rs, line, difference) }
    }

    fn withdraw(&mut self, line: i64) -> Answer {
        let (h, l, r) = (self.held.as_ptr(), self.lines.as_mut_ptr(), self.report.as_mut_ptr());
        let (hs, ls, rs) = (self.held.len(), self.lines.len(), self.report.len());
        unsafe { level_withdraw(self.version, self.b, self.t, h, hs, l, ls, r, rs, line) }
    }

    fn print(&self, what: &str, a: Answer) {
        println!("{what}: number {}, {} loops", a.number, a.rows);
        for row in self.report.chunks(5).take(a.rows as usize) {
            let verdict = if row[4] == 0 { "within" } else { "over" };
            println!("  closing line {}, {} lines, {} m, misclosure {}, {verdict}", row[0], row[1], row[2], row[3]);
        }
    }
}

fn main() -> ExitCode {
    let Some(Ok(file)) = std::env::args().nth(1).map(std::fs::read) else {
        return ExitCode::from(2);
    };
    let (r, mut book) = Book::read(&file);
    println!("read: number {}, version {}, {} marks, {} lines", r.number, r.version, r.b, r.n);
    if r.number != 0 {
        return ExitCode::FAILURE;
    }
    let a = book.survey();
    book.print("survey", a);
    let a = book.rerun(6, 2_428_000);
    book.print("line 6 run again", a);
    let a = book.withdraw(3);
    book.print("line 3 withdrawn", a);
    let a = book.withdraw(3);
    book.print("line 3 once more", a);

    // Version 2: t is 0, and the last number of a line is its class. Classes 0 and 4 allow 12649 here.
    let lines = vec![1, 2, 0, 1000, 1, 0, 1, 2, 12649, 1000, 1, 4];
    let mut book = Book { version: 2, b: 2, t: 0, held: vec![], lines, report: vec![0; 5] };
    let a = book.survey();
    book.print("classes 0 and 4", a);
    let a = book.rerun(2, 12650);
    book.print("line 2 run again", a);
    ExitCode::SUCCESS
}
