//! Lists one block file on standard input by the second program, so that its
//! reading of documents 01 and 02 can be held to texts written by hand.

mod model;

use std::io::{Read, Write};

fn main() {
    let mut file = Vec::new();
    let mut input = std::io::stdin();
    input.read_to_end(&mut file).expect("standard input");
    let text = model::listing::listing(&file);
    let mut output = std::io::stdout();
    output.write_all(text.as_bytes()).expect("standard output");
}
