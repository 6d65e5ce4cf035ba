//! What the stand-ins for the programs share: a text for what is read, well or with one fault.

use crate::faults::Faulty;
use reference::MAX_READ;
use std::io::{self, Read, Write};

/// Reads a file and writes its text, with the faults that begin with this name.
pub fn run(name: &str, text: impl FnOnce(&[u8]) -> Vec<u8>) {
    let named = |fault: &str| Faulty::named(&format!("{name}-{fault}"));
    let mut file = Vec::new();
    let most = if named("reads-on") { 2 * MAX_READ } else { MAX_READ };
    // What can be read counts as the file.
    if named("reads-once") {
        file.resize(most, 0);
        let count = io::stdin().lock().read(&mut file).unwrap_or(0);
        file.truncate(count);
    } else {
        let _ = io::stdin().lock().take(most as u64).read_to_end(&mut file);
    }
    let mut text = text(&file);
    if named("reads-on") && file.len() > MAX_READ {
        text = b"REFUSED 2 AT 0\n".to_vec();
    }
    if named("of-version-1") && text.starts_with(b"LEVEL BOOK 2") {
        text[11] = b'1';
    }
    if named("without-last-newline") {
        text.pop();
    }
    let _ = io::stdout().lock().write_all(&text);
}
