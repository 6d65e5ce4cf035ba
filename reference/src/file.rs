//! A book's file: read with refusals 1 to 7 and 10, written with 3, 4, 6, 7, 16 and 10.

use crate::answers::{refuse, Refusal};
use crate::book::{test_head, test_held, test_lines};
use crate::*;

/// The numbers in the head of a file.
pub(crate) struct Head {
    pub version: &'static Version,
    pub b: i64,
    pub t: i64,
    pub h: usize,
    pub n: usize,
}

/// The first two, four and eight bytes, big-endian.
fn be16(s: &[u8]) -> u16 {
    u16::from_be_bytes([s[0], s[1]])
}

fn be32(s: &[u8]) -> u32 {
    u32::from_be_bytes([s[0], s[1], s[2], s[3]])
}

fn be64(s: &[u8]) -> u64 {
    (be32(s) as u64) << 32 | be32(&s[4..]) as u64
}

/// 1 to 5, in that order.
fn read_head(file: &[u8]) -> Result<Head, Refusal> {
    if file.len() < HEAD_BYTES {
        return refuse(1);
    }
    if be32(file) as usize != file.len() {
        return refuse(2);
    }
    let version = Version::test(file[4] as i64)?;
    let (t, b) = (be16(&file[5..]) as i64, be16(&file[7..]) as i64);
    let (h, n) = (be16(&file[9..]) as usize, be16(&file[11..]) as usize);
    test_head(version, b, t, h, n)?;
    if file.len() != version.file_bytes(h, n) {
        return refuse(5);
    }
    Ok(Head { version, b, t, h, n })
}

/// Reads a file into lent buffers. Nothing is written unless the whole file is good.
pub(crate) fn read(file: &[u8], held: &mut [i64], lines: &mut [i64]) -> Result<Head, Refusal> {
    let head = read_head(file)?;
    let line_bytes = head.version.line_bytes;
    let (held_part, line_part) = file[HEAD_BYTES..].split_at(HELD_BYTES * head.h);
    let mut held_room = [0; HELD * MAX_HELD];
    let mut line_room = [0; LINE * MAX_LINES];
    let new_held = &mut held_room[..HELD * head.h];
    let new_lines = &mut line_room[..LINE * head.n];
    for (bytes, entry) in held_part.chunks_exact(HELD_BYTES).zip(new_held.chunks_exact_mut(HELD)) {
        entry[0] = be16(bytes) as i64;
        entry[1] = be64(&bytes[2..]) as i64;
    }
    for (bytes, line) in line_part.chunks_exact(line_bytes).zip(new_lines.chunks_exact_mut(LINE)) {
        line[0] = be16(bytes) as i64;
        line[1] = be16(&bytes[2..]) as i64;
        line[2] = be32(&bytes[4..]) as i32 as i64;
        line[3] = be32(&bytes[8..]) as i64;
        [line[4], line[5]] = match bytes[12..] {
            [class, standing] => [standing as i64, class as i64],
            _ => [1, NO_CLASS],
        };
    }
    test_held(head.b, new_held)?;
    test_lines(head.version, head.b, new_lines)?;
    if held.len() < new_held.len() || lines.len() < new_lines.len() {
        return refuse(10);
    }
    held[..new_held.len()].copy_from_slice(new_held);
    lines[..new_lines.len()].copy_from_slice(new_lines);
    Ok(head)
}

/// Writes a book's file into a lent buffer. Nothing is written unless the whole file can be.
pub(crate) fn write(book: Lent, file: &mut [u8]) -> Result<usize, Refusal> {
    book.test()?;
    let one = book.version == Version::ONE.number;
    if one && book.lines.chunks_exact(LINE).any(|line| line[4] == 0) {
        return refuse(16);
    }
    let bytes = bytes_of(book);
    if file.len() < bytes {
        return refuse(10);
    }
    put(book, &mut file[..bytes]);
    Ok(bytes)
}

/// The file of a book, good or not: what does not fit is cut to its last bytes. In version 1, as in one that
/// there is not, all its lines stand.
pub fn file_of(book: Lent) -> Vec<u8> {
    let mut file = vec![0; bytes_of(book)];
    put(book, &mut file);
    file
}

/// The bytes that the file of a book has.
fn bytes_of(book: Lent) -> usize {
    book.limits().file_bytes(book.held.len() / HELD, book.lines.len() / LINE)
}

/// Fills a file that is as long as the book's.
fn put(book: Lent, file: &mut [u8]) {
    let Lent { version, b, t, held, lines } = book;
    let (h, n, stated) = (held.len() / HELD, lines.len() / LINE, file.len());
    let (head, entries) = file.split_at_mut(HEAD_BYTES);
    let (held_part, line_part) = entries.split_at_mut(HELD_BYTES * h);
    head[..4].copy_from_slice(&(stated as u32).to_be_bytes());
    head[4] = version as u8;
    for (bytes, number) in head[5..].chunks_exact_mut(2).zip([t, b, h as i64, n as i64]) {
        bytes.copy_from_slice(&(number as u16).to_be_bytes());
    }
    for (bytes, entry) in held_part.chunks_exact_mut(HELD_BYTES).zip(held.chunks_exact(HELD)) {
        bytes[..2].copy_from_slice(&(entry[0] as u16).to_be_bytes());
        bytes[2..].copy_from_slice(&entry[1].to_be_bytes());
    }
    let line_bytes = book.limits().line_bytes;
    for (bytes, line) in line_part.chunks_exact_mut(line_bytes).zip(lines.chunks_exact(LINE)) {
        bytes[..2].copy_from_slice(&(line[0] as u16).to_be_bytes());
        bytes[2..4].copy_from_slice(&(line[1] as u16).to_be_bytes());
        bytes[4..8].copy_from_slice(&(line[2] as i32).to_be_bytes());
        bytes[8..12].copy_from_slice(&(line[3] as u32).to_be_bytes());
        if let [class, standing] = &mut bytes[12..] {
            [*class, *standing] = [line[5] as u8, line[4] as u8];
        }
    }
}
