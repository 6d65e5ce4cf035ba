//! The report program or the sketch program as a process.

use std::io::{self, Write};
use std::process::{Command, Stdio};
use std::time::Duration;

/// What a program writes for a file, and how it ended if not well.
pub fn run(program: &str, file: &[u8]) -> Vec<u8> {
    try_run(program, file).unwrap_or_else(|e| format!("{program}: {e}\n").into_bytes())
}

fn try_run(program: &str, file: &[u8]) -> io::Result<Vec<u8>> {
    let mut words = program.split_whitespace();
    let mut command = Command::new(words.next().unwrap_or_default());
    let mut child = command.args(words).stdin(Stdio::piped()).stdout(Stdio::piped()).spawn()?;
    if let Some(mut input) = child.stdin.take() {
        // Now and then in two parts, so that one read does not get the whole. The program need not
        // read to the end: what it leaves is no failure.
        let in_parts = file.len() % 16 == 13;
        let (first, rest) = file.split_at(if in_parts { file.len() / 2 } else { 0 });
        if in_parts && input.write_all(first).is_ok() {
            std::thread::sleep(Duration::from_millis(1));
        }
        let _ = input.write_all(rest);
    }
    let output = child.wait_with_output()?;
    let mut written = output.stdout;
    if !output.status.success() {
        written.extend(format!("({})\n", output.status).bytes());
    }
    Ok(written)
}
