//! The text of the report program and of the sketch program.

use crate::answers::Refusal;
use crate::file::{self, Head};
use crate::network::Network;
use crate::sketch::{signed, Link, Sketch};
use crate::*;
use std::fmt::Write;

/// Numbers as the programs print them, each after a space.
fn spaced(numbers: impl Iterator<Item = i64>) -> String {
    numbers.map(|number| format!(" {number}")).collect()
}

/// What a program writes for a file, of which at most 16,384 bytes count: the text that it has for a
/// good book with these lines, or the refusal.
fn of_file(file: &[u8], of_book: impl FnOnce(&Head, &[i64]) -> String) -> Vec<u8> {
    let file = &file[..file.len().min(MAX_READ)];
    let mut held = [0; HELD * MAX_HELD];
    let mut lines = [0; LINE * MAX_LINES];
    let text = match file::read(file, &mut held, &mut lines) {
        Ok(head) => of_book(&head, &lines[..LINE * head.n]),
        Err(Refusal { number, place }) => format!("REFUSED {number} AT {place}\n"),
    };
    text.into_bytes()
}

/// What the report program writes for this file.
pub(crate) fn report(network: &mut Network, file: &[u8]) -> Vec<u8> {
    of_file(file, |head, lines| report_of_book(network, head, lines))
}

/// What the sketch program writes for this file.
pub(crate) fn sketch(sketch: &mut Sketch, file: &[u8]) -> Vec<u8> {
    of_file(file, |head, lines| sketch_of_book(sketch, head, lines))
}

/// The report of a good book.
fn report_of_book(network: &mut Network, head: &Head, lines: &[i64]) -> String {
    network.load(head.b, head.t, lines);
    let (pieces, rows) = (network.pieces, network.rows);
    let mut text = format!("LEVEL BOOK {}\n", head.version.number);
    text += &format!("MARKS {} LINES {} PIECES {pieces} LOOPS {rows}\n", head.b, head.n);
    for i in 0..rows {
        let [closing, _, length, misclosure, over] = network.take(i);
        let verdict = if over == 1 { "OVER" } else { "WITHIN" };
        let path = spaced(network.search.path().iter().map(|&signed| signed as i64));
        let number = i + 1;
        // Writing to a string cannot fail.
        let _ = writeln!(
            text,
            "LOOP {number} LENGTH {length} MISCLOSURE {misclosure} {verdict}: {closing}{path}"
        );
    }
    let off = network.off_circuits();
    let list: Vec<i64> = off.iter().zip(1..).filter(|(&off, _)| off).map(|(_, i)| i).collect();
    text + &format!("NOT CHECKED {}:{}\n", list.len(), spaced(list.iter().copied()))
}

/// The sketch of a good book. A link names both its junctions, a spur the mark that it is read from and a
/// loop the mark that it hangs at.
fn sketch_of_book(sketch: &mut Sketch, head: &Head, lines: &[i64]) -> String {
    sketch.draw(head.b, lines);
    let counts = [&sketch.links, &sketch.spurs, &sketch.loops].map(Vec::len);
    let mut text = format!("JUNCTION SKETCH\nMARKS {} LINES {}", head.b, head.n);
    text += &format!(" LINKS {} SPURS {} LOOPS {}\n", counts[0], counts[1], counts[2]);
    for link in &sketch.links {
        let [first, last, ..] = sketch.entry(link, lines);
        text += &format!("LINK {first} {last}{}", sums_and_run(sketch, link, lines, "DIFFERENCE"));
    }
    for spur in &sketch.spurs {
        let [mark, ..] = sketch.entry(spur, lines);
        text += &format!("SPUR {mark}{}", sums_and_run(sketch, spur, lines, "DIFFERENCE"));
    }
    for closed in &sketch.loops {
        let [mark, ..] = sketch.entry(closed, lines);
        text += &format!("LOOP {mark}{}", sums_and_run(sketch, closed, lines, "MISCLOSURE"));
    }
    text
}

/// What follows the marks of a link, spur or loop; `word` is what its difference is called.
fn sums_and_run(sketch: &Sketch, link: &Link, lines: &[i64], word: &str) -> String {
    let [.., length, difference] = sketch.entry(link, lines);
    let run = spaced(sketch.passes(link).map(signed));
    format!(" LENGTH {length} {word} {difference}:{run}\n")
}
