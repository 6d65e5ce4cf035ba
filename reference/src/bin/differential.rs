//! Drives every call of `liblevel.a` and the reference with the same inputs and compares every answer
//! and every lent buffer. What the archive has written it must read as the same book, and what it has read
//! it must write as the same bytes.
//!
//!     differential [--seed N] [--calls N] [--report COMMAND] [--sketch COMMAND] [--files N]
//!                  [--through COMMAND] [--only NAME,NAME..]
//!
//! With `--report` and `--sketch`, the program that the command starts is given files on standard input,
//! one for every fifty calls or as many as `--files` says, and what it writes is compared with the
//! reference's text. With `--through`, the archive is reached through the server that the command
//! starts. With `--only`, calls of these names alone are compared, and what the programs write that are
//! named. Prints the seed and what was compared; on a difference prints the call, both answers and the
//! smallest such call that it finds, and exits with 1.

use reference::bridge::Bridge;
use reference::trial::asks::{every_ask, new_difference, room};
use reference::trial::buffer::Buffer;
use reference::trial::call::{lay_out, make, own_report, CALLS, KINDS, PROGRAMS};
use reference::trial::call::{Ask, Call, Given, Kept, Outcome, Program};
use reference::trial::damage;
use reference::trial::random::Random;
use reference::trial::round_trip::{is_back, way_back};
use reference::trial::shapes::good_book;
use reference::trial::shrink::shrink;
use reference::trial::words::{arguments, print_book, print_file};
use reference::trial::{program, Book};
use reference::*;
use std::process::ExitCode;

/// Answers are counted by number: 0 for done, and the refusals.
const NUMBERS: usize = 17;
/// Corrections in a chain on a book that is too large to be emptied.
const LONG_CHAIN: usize = 12;

struct Options {
    seed: u64,
    calls: usize,
    /// The commands of the programs that are compared.
    programs: [Option<String>; PROGRAMS.len()],
    /// How many files each of them is given.
    files: usize,
    through: Option<String>,
    only: Option<Vec<String>>,
}

fn options() -> Result<Options, String> {
    let programs = [None, None];
    let mut options =
        Options { seed: 1, calls: 20_000, programs, files: 0, through: None, only: None };
    let mut files = None;
    let mut words = std::env::args().skip(1);
    while let Some(word) = words.next() {
        let value = words.next().ok_or(format!("{word} needs a value"))?;
        let number = || value.parse::<u64>().map_err(|_| format!("{word} needs a number"));
        match word.as_str() {
            "--seed" => options.seed = number()?,
            "--calls" => options.calls = number()? as usize,
            "--report" => options.programs[Program::Report as usize] = Some(value),
            "--sketch" => options.programs[Program::Sketch as usize] = Some(value),
            "--files" => files = Some(number()? as usize),
            "--through" => options.through = Some(value),
            "--only" => options.only = Some(call_names(&value)?),
            _ => return Err(format!("unknown option {word}")),
        }
    }
    options.files = files.unwrap_or(options.calls / 50);
    Ok(options)
}

/// Names of calls with commas between them.
fn call_names(names: &str) -> Result<Vec<String>, String> {
    let calls = &KINDS[..CALLS];
    match names.split(',').find(|name| !calls.contains(name)) {
        Some(name) => Err(format!("there is no call {name}; there are {}", calls.join(", "))),
        None => Ok(names.split(',').map(String::from).collect()),
    }
}

#[cfg(feature = "archive")]
fn linked() -> Result<Box<dyn Level>, String> {
    Ok(Box::new(reference::archive::Archive))
}

#[cfg(not(feature = "archive"))]
fn linked() -> Result<Box<dyn Level>, String> {
    Err("built without the archive, so --through must name a server".to_string())
}

/// The library to test: linked, or through a server.
fn library(options: &Options) -> Result<Box<dyn Level>, String> {
    match &options.through {
        Some(command) => Ok(Box::new(Bridge::new(command))),
        None => linked(),
    }
}

fn main() -> ExitCode {
    let test = options().and_then(|options| Ok(Test::new(library(&options)?, options)));
    let mut test = match test {
        Ok(test) => test,
        Err(message) => {
            eprintln!("differential: {message}");
            return ExitCode::from(2);
        }
    };
    println!("seed {}", test.options.seed);
    let result = test.run();
    test.print_counts();
    match result {
        Ok(()) => {
            let (all, version_2) = (test.compared(), test.version_2);
            println!("{all} calls compared, {version_2} of version 2, no difference");
            ExitCode::SUCCESS
        }
        Err(call) => {
            println!("DIFFERENCE after {} calls", test.compared());
            test.print_call(&call);
            let smallest = shrink(*call, |smaller| test.both(smaller).differ());
            println!("SMALLEST FOUND");
            test.print_call(&smallest);
            ExitCode::FAILURE
        }
    }
}

/// One call made on both: what it was lent, and what came of it.
struct Both {
    lent: Vec<Buffer>,
    archive: Outcome,
    reference: Outcome,
    /// The way back, if the archive's does not lead to what was lent.
    lost: Option<Call>,
}

impl Both {
    /// Whether answer or buffers differ, a refused call has changed a buffer, or the way back is lost.
    fn differ(&self) -> bool {
        let refused = self.archive.given.number() != 0;
        self.archive != self.reference
            || refused && self.archive.buffers != self.lent
            || self.lost.is_some()
    }
}

/// A call on which archive and reference differ.
type Different = Box<Call>;

struct Test {
    random: Random,
    archive: Box<dyn Level>,
    reference: Reference,
    options: Options,
    /// How many calls of each kind were answered with each number, and how many in all were of version 2.
    counts: [[usize; NUMBERS]; KINDS.len()],
    version_2: usize,
}

impl Test {
    fn new(archive: Box<dyn Level>, options: Options) -> Self {
        let random = Random::new(options.seed);
        let counts = [[0; NUMBERS]; KINDS.len()];
        Test { random, archive, reference: Reference::new(), options, counts, version_2: 0 }
    }

    fn compared(&self) -> usize {
        self.counts.iter().flatten().sum()
    }

    /// Rounds of calls on good books, damaged books, files and chains of corrections.
    fn run(&mut self) -> Result<(), Different> {
        while self.compared() < self.options.calls {
            match self.random.below(8) {
                0..=4 => {
                    let book = damage::any_book(&mut self.random);
                    self.every_call(book)?;
                }
                5 | 6 => self.files()?,
                _ => self.chain()?,
            }
        }
        Ok(())
    }

    fn every_call(&mut self, book: Book) -> Result<(), Different> {
        for ask in every_ask(&mut self.random, &mut self.reference, &book) {
            self.compare(Call::Ask { book: book.clone(), ask })?;
        }
        Ok(())
    }

    /// Files of good and damaged books, whole and damaged.
    fn files(&mut self) -> Result<(), Different> {
        for file in damage::files(&mut self.random) {
            let (held_room, lines_room) = (room(&mut self.random), room(&mut self.random));
            for program in PROGRAMS {
                if self.is_due(program) {
                    self.compare(Call::Text { program, file: file.clone() })?;
                }
            }
            self.compare(Call::Read { file, held_room, lines_room })?;
        }
        Ok(())
    }

    /// Whether a program has had fewer files than its share of the calls so far.
    fn is_due(&self, program: Program) -> bool {
        let had: usize = self.counts[program.kind()].iter().sum();
        let share = self.options.files * self.compared() / self.options.calls.max(1);
        let named = self.options.programs[program as usize].is_some();
        named && had <= share && had < self.options.files
    }

    /// Corrections one after the other with the kept report, as a rule until no line stands.
    fn chain(&mut self) -> Result<(), Different> {
        let mut book = good_book(&mut self.random);
        let mut report = own_report(&mut self.reference, &book);
        report.extend([-1, -2, -3]);
        let most = if book.lines_count() > 100 { LONG_CHAIN } else { usize::MAX };
        for _ in 0..most {
            let standing = standing(&book);
            if standing.is_empty() {
                break;
            }
            let line = self.random.pick(&standing);
            let kept = Kept { rows: Some(report), ..Kept::default() };
            let ask = if self.random.once_in(3) {
                Ask::Rerun { kept, line, difference: new_difference(&mut self.random) }
            } else {
                Ask::Withdraw { kept, line }
            };
            let corrected = self.compare(Call::Ask { book: book.clone(), ask })?;
            book.lines = corrected.buffers[1].numbers().to_vec();
            report = corrected.buffers[2].numbers().to_vec();
        }
        self.every_call(book)
    }

    /// Whether calls of this kind are to be compared. A program is asked only where it is named.
    fn wanted(&self, kind: usize) -> bool {
        let named = |only: &Vec<String>| only.iter().any(|one| one == KINDS[kind]);
        kind >= CALLS || self.options.only.as_ref().is_none_or(named)
    }

    /// Makes a call on both, compares and counts it; one that is not wanted on the reference alone.
    fn compare(&mut self, call: Call) -> Result<Outcome, Different> {
        if !self.wanted(call.kind()) {
            let lent = lay_out(&mut self.reference, &call);
            return Ok(make(&mut self.reference, &call, &lent));
        }
        let both = self.both(&call);
        if both.differ() {
            return Err(Box::new(call));
        }
        let number = both.reference.given.number() as usize;
        self.counts[call.kind()][number] += 1;
        self.version_2 += (call.version() == 2) as usize;
        Ok(both.reference)
    }

    fn both(&mut self, call: &Call) -> Both {
        let lent = lay_out(&mut self.reference, call);
        let (archive, reference) = match call {
            Call::Text { program, file } => {
                let command = self.options.programs[*program as usize].as_deref();
                let written = program::run(command.unwrap_or_default(), file);
                (text(&written), text(&self.reference_text(*program, file)))
            }
            _ => {
                let archive = make(self.archive.as_mut(), call, &lent);
                (archive, make(&mut self.reference, call, &lent))
            }
        };
        let back = if archive == reference { way_back(&archive) } else { None };
        let lost = back.filter(|back| self.wanted(back.kind()) && !self.leads_back(call, back));
        Both { lent, archive, reference, lost }
    }

    /// Whether the archive's way back from a call leads to what the call was lent.
    fn leads_back(&mut self, call: &Call, back: &Call) -> bool {
        let lent = lay_out(&mut self.reference, back);
        is_back(call, &make(self.archive.as_mut(), back, &lent))
    }

    fn reference_text(&mut self, program: Program, file: &[u8]) -> Vec<u8> {
        match program {
            Program::Report => self.reference.report(file),
            Program::Sketch => self.reference.sketch_text(file),
        }
    }

    fn print_counts(&self) {
        for (kind, counts) in KINDS.iter().zip(&self.counts) {
            let all: usize = counts.iter().sum();
            if all == 0 {
                continue;
            }
            let refused = (1..NUMBERS).filter(|&number| counts[number] > 0);
            let refused: Vec<String> =
                refused.map(|number| format!("{number}: {}", counts[number])).collect();
            println!("{kind:18} {all:7}   done {:7}   refused {}", counts[0], refused.join(", "));
        }
    }

    /// Prints a call and, if that is what differs, its way back.
    fn print_call(&mut self, call: &Call) {
        let both = self.both(call);
        print_both(call, &both);
        if let Some(back) = &both.lost {
            println!("THE WAY BACK does not lead to what was lent");
            print_both(back, &self.both(back));
        }
    }
}

/// Prints a call with all it is lent, both answers, and where the buffers differ.
fn print_both(call: &Call, both: &Both) {
    const MOST: usize = 8;
    println!("{} {}", KINDS[call.kind()], arguments(call));
    match call {
        Call::Read { file, .. } | Call::Text { file, .. } => print_file(file),
        Call::Ask { book, .. } => print_book(book),
    }
    for buffer in &both.lent {
        println!("  lent {}: {} places", buffer.name, buffer.count());
    }
    println!("  archive:   {:?}", both.archive.given);
    println!("  reference: {:?}", both.reference.given);
    let after = both.archive.buffers.iter().zip(&both.reference.buffers);
    for ((archive, reference), before) in after.zip(&both.lent) {
        for (place, ours, theirs) in archive.differences(reference).into_iter().take(MOST) {
            println!("  {}[{place}]: archive {ours}, reference {theirs}", archive.name);
        }
        if both.archive.given.number() != 0 {
            for (place, now, then) in archive.differences(before).into_iter().take(MOST) {
                println!("  {}[{place}]: refused, yet {then} became {now}", archive.name);
            }
        }
    }
}

/// The numbers of a book's standing lines.
fn standing(book: &Book) -> Vec<i64> {
    let lines = (1..).zip(book.lines.chunks_exact(LINE));
    lines.filter(|(_, line)| line[4] == 1).map(|(number, _)| number).collect()
}

/// What a program wrote.
fn text(bytes: &[u8]) -> Outcome {
    Outcome { given: Given::Text(String::from_utf8_lossy(bytes).into_owned()), buffers: vec![] }
}
