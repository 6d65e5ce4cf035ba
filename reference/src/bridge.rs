//! The calls of `liblevel.a` through a server process, where the archive is for another processor.
//!
//! `server/server.c` says what is sent and answered.

use crate::*;
use std::io::{self, Read, Write};
use std::process::{Child, ChildStdin, ChildStdout, Command, Stdio};

/// Numbers at the start of a request and of what comes back, and how many of these are the call's answer.
const HEAD: usize = 12;
const ANSWER: usize = 7;

/// In the place of a refusal's number: the call touched what it may not; the server ended.
const TOUCHED: i64 = -1;
const ENDED: i64 = -2;

struct Server {
    process: Child,
    input: ChildStdin,
    output: ChildStdout,
}

/// A server that is started when it is needed, and again after it has ended.
pub struct Bridge {
    command: Vec<String>,
    server: Option<Server>,
}

/// How many slices there can be after held and lines.
const MORE: usize = 4;

/// A request: the book, the loop or line with its difference, and the slices that are left.
struct Request<'a> {
    kind: Kind,
    book: Lent<'a>,
    number: i64,
    difference: i64,
    more: More<'a>,
}

#[derive(Clone, Copy)]
enum More<'a> {
    Numbers([&'a [i64]; MORE]),
    File(&'a [u8]),
}

impl<'a> More<'a> {
    /// One slice, as most calls are lent.
    fn one(numbers: &'a [i64]) -> Self {
        More::Numbers([numbers, &[], &[], &[]])
    }

    fn counts(&self) -> [usize; MORE] {
        match self {
            More::Numbers(slices) => slices.map(<[i64]>::len),
            More::File(file) => [file.len(), 0, 0, 0],
        }
    }
}

/// What comes back: the numbers of the answer, and the slices after the call. Those after held and lines are
/// numbers or a file; the other is empty.
struct Reply {
    answer: [i64; ANSWER],
    held: Vec<i64>,
    lines: Vec<i64>,
    more: [Vec<i64>; MORE],
    file: Vec<u8>,
}

impl Bridge {
    /// The words of the command that starts the server.
    pub fn new(command: &str) -> Self {
        Bridge { command: command.split_whitespace().map(String::from).collect(), server: None }
    }

    /// Asks the server; of one that ends, the answer says so and the slices are as they were.
    fn ask(&mut self, request: &Request) -> Reply {
        self.try_ask(request).unwrap_or_else(|_| {
            if let Some(mut server) = self.server.take() {
                let _ = server.process.kill();
                let _ = server.process.wait();
            }
            let (more, file) = match request.more {
                More::Numbers(slices) => (slices.map(<[i64]>::to_vec), vec![]),
                More::File(file) => (Default::default(), file.to_vec()),
            };
            let (held, lines) = (request.book.held.to_vec(), request.book.lines.to_vec());
            Reply { answer: [ENDED, 0, 0, 0, 0, 0, 0], held, lines, more, file }
        })
    }

    fn try_ask(&mut self, request: &Request) -> io::Result<Reply> {
        let server = match self.server.take() {
            Some(server) => server,
            None => start(&self.command)?,
        };
        let Server { input, output, .. } = self.server.insert(server);
        input.write_all(&sent(request))?;
        let numbers = receive(output, HEAD)?;
        let held = receive(output, request.book.held.len())?;
        let lines = receive(output, request.book.lines.len())?;
        let mut more: [Vec<i64>; MORE] = Default::default();
        let mut file = vec![];
        match request.more {
            More::Numbers(slices) => {
                for (after, lent) in more.iter_mut().zip(slices) {
                    *after = receive(output, lent.len())?;
                }
            }
            More::File(lent) => {
                file = vec![0; lent.len()];
                output.read_exact(&mut file)?;
            }
        }
        let mut answer = [0; ANSWER];
        answer.copy_from_slice(&numbers[..ANSWER]);
        if numbers[ANSWER] != 1 {
            answer[0] = TOUCHED;
        }
        Ok(Reply { answer, held, lines, more, file })
    }

    /// A call that fills an output. Gives the numbers of its answer.
    fn fill(&mut self, kind: Kind, book: Lent, number: i64, out: &mut [i64]) -> [i64; ANSWER] {
        let more = More::one(out);
        let reply = self.ask(&Request { kind, book, number, difference: 0, more });
        out.copy_from_slice(&reply.more[0]);
        reply.answer
    }

    /// A correction of a line. Gives the numbers of its answer.
    fn correct(
        &mut self,
        kind: Kind,
        book: LentMut,
        report: &mut [i64],
        number: i64,
        difference: i64,
    ) -> [i64; ANSWER] {
        let more = More::one(report);
        let reply = self.ask(&Request { kind, book: book.lent(), number, difference, more });
        book.lines.copy_from_slice(&reply.lines);
        report.copy_from_slice(&reply.more[0]);
        reply.answer
    }
}

impl Drop for Bridge {
    /// The server ends when its input does.
    fn drop(&mut self) {
        if let Some(Server { mut process, input, .. }) = self.server.take() {
            drop(input);
            let _ = process.wait();
        }
    }
}

fn start(command: &[String]) -> io::Result<Server> {
    let (program, words) = command.split_first().ok_or(io::ErrorKind::NotFound)?;
    let mut process =
        Command::new(program).args(words).stdin(Stdio::piped()).stdout(Stdio::piped()).spawn()?;
    match (process.stdin.take(), process.stdout.take()) {
        (Some(input), Some(output)) => Ok(Server { process, input, output }),
        _ => Err(io::ErrorKind::BrokenPipe.into()),
    }
}

fn sent(request: &Request) -> Vec<u8> {
    let Request { kind, book, number, difference, more } = request;
    let Lent { version, b, t, held, lines } = *book;
    let mut head = vec![*kind as i64, version, b, t, *number, *difference];
    head.extend([held.len(), lines.len()].map(|count| count as i64));
    head.extend(more.counts().map(|count| count as i64));
    let mut bytes = vec![];
    for numbers in [&head, held, lines] {
        put(&mut bytes, numbers);
    }
    match more {
        More::Numbers(slices) => slices.iter().for_each(|numbers| put(&mut bytes, numbers)),
        More::File(file) => bytes.extend_from_slice(file),
    }
    bytes
}

fn put(bytes: &mut Vec<u8>, numbers: &[i64]) {
    bytes.extend(numbers.iter().flat_map(|number| number.to_le_bytes()));
}

fn receive(output: &mut ChildStdout, count: usize) -> io::Result<Vec<i64>> {
    let mut bytes = vec![0; 8 * count];
    output.read_exact(&mut bytes)?;
    let number = |eight: &[u8]| eight.iter().rev().fold(0, |n, &byte| n << 8 | byte as i64);
    Ok(bytes.chunks_exact(8).map(number).collect())
}

fn answer([number, place, rows, pieces, ..]: [i64; ANSWER]) -> Answer {
    Answer { number, place, rows, pieces }
}

fn listed([number, place, entries, ..]: [i64; ANSWER]) -> Listed {
    Listed { number, place, entries }
}

impl Level for Bridge {
    fn read(&mut self, file: &[u8], held: &mut [i64], lines: &mut [i64]) -> ReadAnswer {
        let book = Lent { version: 0, b: 0, t: 0, held, lines: &*lines };
        let more = More::File(file);
        let reply = self.ask(&Request { kind: Kind::Read, book, number: 0, difference: 0, more });
        held.copy_from_slice(&reply.held);
        lines.copy_from_slice(&reply.lines);
        let [number, place, version, b, t, h, n] = reply.answer;
        ReadAnswer { number, place, version, b, t, h, n }
    }

    fn write(&mut self, book: Lent, file: &mut [u8]) -> Written {
        let more = More::File(file);
        let reply = self.ask(&Request { kind: Kind::Write, book, number: 0, difference: 0, more });
        file.copy_from_slice(&reply.file);
        let [number, place, bytes, ..] = reply.answer;
        Written { number, place, bytes }
    }

    fn survey(&mut self, book: Lent, rows: &mut [i64]) -> Answer {
        answer(self.fill(Kind::Survey, book, 0, rows))
    }

    fn listing(&mut self, book: Lent, number: i64, out: &mut [i64]) -> Listed {
        listed(self.fill(Kind::Listing, book, number, out))
    }

    fn listings(&mut self, book: Lent, out: &mut [i64]) -> Listed {
        listed(self.fill(Kind::Listings, book, 0, out))
    }

    fn not_checked(&mut self, book: Lent, out: &mut [i64]) -> Listed {
        listed(self.fill(Kind::NotChecked, book, 0, out))
    }

    fn sketch(
        &mut self,
        book: Lent,
        links: &mut [i64],
        spurs: &mut [i64],
        loops: &mut [i64],
        run: &mut [i64],
    ) -> Sketched {
        let more = More::Numbers([links, spurs, loops, run]);
        let reply = self.ask(&Request { kind: Kind::Sketch, book, number: 0, difference: 0, more });
        for (out, after) in [links, spurs, loops, run].into_iter().zip(&reply.more) {
            out.copy_from_slice(after);
        }
        let [number, place, links, spurs, loops, run, ..] = reply.answer;
        Sketched { number, place, links, spurs, loops, run }
    }

    fn rerun(&mut self, book: LentMut, report: &mut [i64], line: i64, difference: i64) -> Answer {
        answer(self.correct(Kind::Rerun, book, report, line, difference))
    }

    fn withdraw(&mut self, book: LentMut, report: &mut [i64], line: i64) -> Answer {
        answer(self.correct(Kind::Withdraw, book, report, line, 0))
    }

    fn adjust(&mut self, book: Lent, heights: &mut [i64]) -> Adjusted {
        let [number, place, sweeps, ..] = self.fill(Kind::Adjust, book, 0, heights);
        Adjusted { number, place, sweeps }
    }

    fn rate(&mut self, book: Lent, heights: &[i64], line: i64) -> Rated {
        let more = More::one(heights);
        let request = Request { kind: Kind::Rate, book, number: line, difference: 0, more };
        let [number, place, line, correction, withdrawn, rate, ..] = self.ask(&request).answer;
        Rated { number, place, line, correction, withdrawn, rate: f64::from_bits(rate as u64) }
    }
}
