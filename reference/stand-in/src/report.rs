//! A stand-in for the report program, well or with one fault.

use reference::Reference;

fn main() {
    level::program::run("report", |file| Reference::new().report(file));
}
