//! Reads a load's input and prints what the load comes to, by the documents alone.

use std::io::{Read, Write};

fn main() {
    let mut input = Vec::new();
    std::io::stdin()
        .read_to_end(&mut input)
        .expect("standard input can be read");
    std::io::stdout()
        .write_all(cases::load::text(&input).as_bytes())
        .expect("standard output can be written");
}
