//! The helpers on numbers: compared with the machine's own, timed, and listed for the replay.
use oracle::root::bench::bench;
use oracle::root::compare::compare;
use oracle::root::list::list;
use std::env::args;
use std::io::{BufWriter, stdout};
use std::process::ExitCode;

const USAGE: &str = "root compare COUNT SEED | root bench | root list COUNT SEED";

fn main() -> ExitCode {
    let words: Vec<String> = args().skip(1).collect();
    let numbers: Vec<u64> = words
        .iter()
        .skip(1)
        .filter_map(|word| word.parse().ok())
        .collect();
    match (words.first().map(String::as_str), &numbers[..]) {
        (Some("compare"), [count, seed]) => {
            if !compare(*count, *seed) {
                return ExitCode::FAILURE;
            }
        }
        (Some("bench"), []) => bench(),
        (Some("list"), [count, seed]) => {
            if let Err(e) = list(*count, *seed, &mut BufWriter::new(stdout())) {
                eprintln!("root list: {e}");
                return ExitCode::FAILURE;
            }
        }
        _ => {
            eprintln!("{USAGE}");
            return ExitCode::from(2);
        }
    }
    ExitCode::SUCCESS
}
