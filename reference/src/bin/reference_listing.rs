//! The listing program over the second implementation: it stands in for the proved one where that is to be tried out.
use std::io::{stdin, stdout, Read, Write};

fn main() {
    let mut text = Vec::new();
    stdin().read_to_end(&mut text).expect("standard input");
    stdout().write_all(reference::listing::printed(&text).as_bytes()).expect("standard output");
}
