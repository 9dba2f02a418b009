//! The program `lapfit` over the given Rust, as one would write it there: for the race with the proved program.
use std::io::{Read, Write};

#[cfg(given)]
fn main() {
    let mut input = Vec::new();
    std::io::stdin().lock().read_to_end(&mut input).expect("standard input");
    let text = oracle::geometry::listing::program(&input);
    std::io::stdout().lock().write_all(text.as_bytes()).expect("standard output");
}

#[cfg(not(given))]
fn main() {
    let _ = (std::io::stdin().read(&mut []), std::io::stdout().flush());
    eprintln!("lapfit: left out, since the given Rust was not at hand when this was built.");
}
