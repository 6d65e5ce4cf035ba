//! A stand-in for the sketch program, well or with one fault.

use reference::Reference;

fn main() {
    level::program::run("sketch-program", |file| Reference::new().sketch_text(file));
}
