//! One call with all that it is lent, made on any implementation, and what came of it.

use super::buffer::Buffer;
use super::Book;
use crate::*;

/// How many places an output has beyond (or, below zero, short of) the whole answer.
pub type Room = i64;

/// The report lent to a correction.
#[derive(Clone, Debug, Default)]
pub struct Kept {
    /// These rows; or, if none are given, the book's own.
    pub rows: Option<Vec<i64>>,
    /// Places more (or, below zero, fewer) than the rows have.
    pub beyond: Room,
    /// A place, counted from the last and round again, that is off by so much.
    pub off: Option<(usize, i64)>,
}

/// What is asked of a book. The rooms of a sketch are those of links, spurs, loops and run.
#[derive(Clone, Debug)]
pub enum Ask {
    Write { room: Room },
    Survey { room: Room },
    Listing { number: i64, room: Room },
    Listings { room: Room },
    NotChecked { room: Room },
    Sketch { rooms: [Room; 4] },
    Rerun { kept: Kept, line: i64, difference: i64 },
    Withdraw { kept: Kept, line: i64 },
    Adjust { room: Room },
    Rate { heights: Vec<i64>, line: i64 },
}

/// A call.
#[derive(Clone, Debug)]
pub enum Call {
    Read {
        file: Vec<u8>,
        held_room: Room,
        lines_room: Room,
    },
    Ask {
        book: Book,
        ask: Ask,
    },
    /// A program, on a file.
    Text {
        program: Program,
        file: Vec<u8>,
    },
}

/// A program that writes a text for a file, in the order of `KINDS`.
#[derive(Clone, Copy, Debug, PartialEq, Eq)]
pub enum Program {
    Report,
    Sketch,
}

pub const PROGRAMS: [Program; 2] = [Program::Report, Program::Sketch];

macro_rules! names {
    ($($name:ident $arguments:tt -> $answer:ident = $call:ident $lent:tt;)*) => {
        [$(stringify!($name),)* "report program", "sketch program"]
    };
}

/// What is compared, by name: the calls, then the programs.
pub const KINDS: [&str; 13] = header!(names);
pub const CALLS: usize = KINDS.len() - PROGRAMS.len();

impl Program {
    /// The place of the program's name in `KINDS`.
    pub fn kind(self) -> usize {
        CALLS + self as usize
    }
}

impl Call {
    /// The version that the book is said to have, or that the file states; of a file that states none 0.
    pub fn version(&self) -> i64 {
        match self {
            Call::Ask { book, .. } => book.version,
            Call::Read { file, .. } | Call::Text { file, .. } => {
                file.get(4).map_or(0, |&version| version as i64)
            }
        }
    }

    /// The place of the call's name in `KINDS`.
    pub fn kind(&self) -> usize {
        match self {
            Call::Read { .. } => Kind::Read as usize,
            Call::Ask { ask, .. } => ask.kind() as usize,
            Call::Text { program, .. } => program.kind(),
        }
    }
}

impl Ask {
    fn kind(&self) -> Kind {
        match self {
            Ask::Write { .. } => Kind::Write,
            Ask::Survey { .. } => Kind::Survey,
            Ask::Listing { .. } => Kind::Listing,
            Ask::Listings { .. } => Kind::Listings,
            Ask::NotChecked { .. } => Kind::NotChecked,
            Ask::Sketch { .. } => Kind::Sketch,
            Ask::Rerun { .. } => Kind::Rerun,
            Ask::Withdraw { .. } => Kind::Withdraw,
            Ask::Adjust { .. } => Kind::Adjust,
            Ask::Rate { .. } => Kind::Rate,
        }
    }
}

/// An answer of any call.
#[derive(Clone, Debug, PartialEq)]
pub enum Given {
    Read(ReadAnswer),
    Written(Written),
    Answer(Answer),
    Listed(Listed),
    Sketched(Sketched),
    Adjusted(Adjusted),
    Rated(Rated),
    /// What a program writes.
    Text(String),
}

impl Given {
    /// The refusal's number, or 0.
    pub fn number(&self) -> i64 {
        match self {
            Given::Read(answer) => answer.number,
            Given::Written(answer) => answer.number,
            Given::Answer(answer) => answer.number,
            Given::Listed(answer) => answer.number,
            Given::Sketched(answer) => answer.number,
            Given::Adjusted(answer) => answer.number,
            Given::Rated(answer) => answer.number,
            Given::Text(text) => {
                let refused = text.strip_prefix("REFUSED ").and_then(|t| t.split(' ').next());
                refused.and_then(|number| number.parse().ok()).unwrap_or(0)
            }
        }
    }
}

/// A call's answer and the buffers after it.
#[derive(Clone, Debug, PartialEq)]
pub struct Outcome {
    pub given: Given,
    pub buffers: Vec<Buffer>,
}

fn places(need: usize, room: Room) -> usize {
    (need as i64).saturating_add(room).max(0) as usize
}

/// The book's own report, as the reference has it; none of a refused book.
pub fn own_report(reference: &mut Reference, book: &Book) -> Vec<i64> {
    let mut rows = vec![0; ROW * MAX_LINES];
    let answer = reference.survey(book.lent(), &mut rows);
    rows.truncate(ROW * answer.rows as usize);
    rows
}

/// How many places the whole answer of a call with one output needs; none if it is refused for another
/// reason.
fn need(reference: &mut Reference, book: &Book, ask: &Ask) -> usize {
    let mut out = [0; MAX_LINES];
    let entries = match *ask {
        Ask::Listing { number, .. } => reference.listing(book.lent(), number, &mut out).entries,
        Ask::Listings { .. } => reference.listings(book.lent(), &mut vec![0; MAX_LISTED]).entries,
        Ask::NotChecked { .. } => reference.not_checked(book.lent(), &mut out).entries,
        Ask::Survey { .. } => return own_report(reference, book).len(),
        _ => book.b.clamp(0, 2 * MAX_MARKS as i64),
    };
    entries as usize
}

fn kept_report(reference: &mut Reference, book: &Book, kept: &Kept) -> Buffer {
    let mut rows = kept.rows.clone().unwrap_or_else(|| own_report(reference, book));
    if let (Some((from_last, by)), false) = (kept.off, rows.is_empty()) {
        let place = rows.len() - 1 - from_last % rows.len();
        rows[place] = rows[place].wrapping_add(by);
    }
    let length = places(rows.len(), kept.beyond);
    let mut buffer = Buffer::output("report", length);
    let common = length.min(rows.len());
    buffer.numbers_mut()[..common].copy_from_slice(&rows[..common]);
    buffer
}

/// Links, spurs, loops and run of a sketch.
fn sketch_outputs(reference: &mut Reference, book: &Book, rooms: &[Room; 4]) -> Vec<Buffer> {
    let [mut links, mut spurs, mut loops] = [[0; ENTRY * MAX_LINES]; 3];
    let mut run = [0; MAX_LINES];
    let answer = reference.sketch(book.lent(), &mut links, &mut spurs, &mut loops, &mut run);
    let entries = |count: i64| ENTRY * count as usize;
    vec![
        Buffer::output("links", places(entries(answer.links), rooms[0])),
        Buffer::output("spurs", places(entries(answer.spurs), rooms[1])),
        Buffer::output("loops", places(entries(answer.loops), rooms[2])),
        Buffer::output("run", places(answer.run as usize, rooms[3])),
    ]
}

/// The buffers that are lent with a book: one as a rule, of a sketch four.
fn more(reference: &mut Reference, book: &Book, ask: &Ask) -> Vec<Buffer> {
    let mut output = |name: &'static str, room: Room| {
        let need = need(reference, book, ask);
        vec![Buffer::output(name, places(need, room))]
    };
    match ask {
        // As long as the file would be if the book were good: 10 can then apply beside any other refusal.
        Ask::Write { room } => vec![Buffer::file("file", places(book.file().len(), *room))],
        Ask::Survey { room } => output("rows", *room),
        Ask::Listing { room, .. } => output("out", *room),
        Ask::Listings { room } => output("out", *room),
        Ask::NotChecked { room } => output("out", *room),
        Ask::Adjust { room } => output("heights", *room),
        Ask::Sketch { rooms } => sketch_outputs(reference, book, rooms),
        Ask::Rerun { kept, .. } | Ask::Withdraw { kept, .. } => {
            vec![kept_report(reference, book, kept)]
        }
        Ask::Rate { heights, .. } => vec![Buffer::of("heights", heights)],
    }
}

/// Lays out the buffers that a call is lent: held entries, lines and, with a book, those after them.
/// Lengths and reports follow the book by the reference.
pub fn lay_out(reference: &mut Reference, call: &Call) -> Vec<Buffer> {
    match call {
        Call::Text { .. } => vec![],
        Call::Read { file, held_room, lines_room } => {
            let (mut held, mut lines) = (vec![0; HELD * MAX_HELD], vec![0; LINE * MAX_LINES]);
            let answer = reference.read(file, &mut held, &mut lines);
            let held = places(HELD * answer.h as usize, *held_room);
            let lines = places(LINE * answer.n as usize, *lines_room);
            vec![Buffer::output("held", held), Buffer::output("lines", lines)]
        }
        Call::Ask { book, ask } => {
            let mut lent = vec![Buffer::of("held", &book.held), Buffer::of("lines", &book.lines)];
            lent.extend(more(reference, book, ask));
            lent
        }
    }
}

/// Makes a call on an implementation, with copies of the buffers that are lent.
pub fn make(level: &mut dyn Level, call: &Call, lent: &[Buffer]) -> Outcome {
    let mut buffers = lent.to_vec();
    let given = match (call, &mut buffers[..]) {
        (Call::Read { file, .. }, [held, lines]) => {
            Given::Read(level.read(file, held.numbers_mut(), lines.numbers_mut()))
        }
        (Call::Ask { book, ask }, [held, lines, more @ ..]) => {
            let Book { version, b, t, .. } = *book;
            let book = Lent { version, b, t, held: held.numbers(), lines: lines.numbers_mut() };
            make_ask(level, ask, book, more)
        }
        _ => Given::Text(String::new()),
    };
    Outcome { given, buffers }
}

/// Asks a book; `more` are the buffers that are lent with it.
fn make_ask(level: &mut dyn Level, ask: &Ask, book: LentMut, more: &mut [Buffer]) -> Given {
    if let (Ask::Write { .. }, [file]) = (ask, &mut *more) {
        return Given::Written(level.write(book.lent(), file.bytes_mut()));
    }
    let mut more: Vec<&mut [i64]> = more.iter_mut().map(Buffer::numbers_mut).collect();
    match (ask, &mut more[..]) {
        (Ask::Survey { .. }, [rows]) => Given::Answer(level.survey(book.lent(), rows)),
        (&Ask::Listing { number, .. }, [out]) => {
            Given::Listed(level.listing(book.lent(), number, out))
        }
        (Ask::Listings { .. }, [out]) => Given::Listed(level.listings(book.lent(), out)),
        (Ask::NotChecked { .. }, [out]) => Given::Listed(level.not_checked(book.lent(), out)),
        (Ask::Sketch { .. }, [links, spurs, loops, run]) => {
            Given::Sketched(level.sketch(book.lent(), links, spurs, loops, run))
        }
        (&Ask::Rerun { line, difference, .. }, [report]) => {
            Given::Answer(level.rerun(book, report, line, difference))
        }
        (&Ask::Withdraw { line, .. }, [report]) => {
            Given::Answer(level.withdraw(book, report, line))
        }
        (Ask::Adjust { .. }, [heights]) => Given::Adjusted(level.adjust(book.lent(), heights)),
        (&Ask::Rate { line, .. }, [heights]) => {
            Given::Rated(level.rate(book.lent(), heights, line))
        }
        _ => Given::Text(String::new()),
    }
}
