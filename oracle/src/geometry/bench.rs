//! A race: the proved functions and the given Rust on the same inputs, in one run.
//!
//! Both take turns within each round, so that what else the machine does falls on both, and the ratio is taken within a
//! round. The given Rust reads its own points and makes its own list; the proved function reads lent numbers and writes to
//! a lent output. Both must make as many items; that they make the same ones is the comparison's matter.
use std::hint::black_box;
use std::time::Instant;

pub const ROUNDS: usize = 301;

/// A round takes about so many seconds on each side: so few that both meet the machine in the same state.
const ROUND: f64 = 0.000_3;

/// One input on both sides; each side answers how many points it keeps, or how many commands it makes.
pub struct Row<'a> {
    pub name: String,
    pub given: Box<dyn FnMut() -> usize + 'a>,
    pub proved: Box<dyn FnMut() -> usize + 'a>,
}

/// Seconds for one call.
fn time(work: &mut dyn FnMut() -> usize, calls: usize) -> f64 {
    let start = Instant::now();
    for _ in 0..calls {
        black_box(work());
    }
    start.elapsed().as_secs_f64() / calls as f64
}

/// The middle, and what a tenth of the values lies below and above.
fn spread(mut values: Vec<f64>) -> (f64, f64, f64) {
    values.sort_by(f64::total_cmp);
    let tenth = values.len() / 10;
    (values[values.len() / 2], values[tenth], values[values.len() - 1 - tenth])
}

/// Seconds for one call of the given Rust and for one of the proved function; each goes first in every other round.
fn round(row: &mut Row, calls: usize, index: usize) -> (f64, f64) {
    if index % 2 == 0 {
        let given = time(&mut row.given, calls);
        return (given, time(&mut row.proved, calls));
    }
    let proved = time(&mut row.proved, calls);
    (time(&mut row.given, calls), proved)
}

/// Prints one row: how many were made, the middle times of the given Rust and of the proved function, and the ratio.
pub fn print_times(name: &str, made: usize, rounds: &[(f64, f64)]) {
    let (ours, _, _) = spread(rounds.iter().map(|round| round.1 * 1e6).collect());
    let (theirs, _, _) = spread(rounds.iter().map(|round| round.0 * 1e6).collect());
    let (ratio, low, high) = spread(rounds.iter().map(|round| round.1 / round.0).collect());
    println!("{name:<67} {made:>8} {theirs:>9.1} {ours:>9.1}   {ratio:.2} ({low:.2}..{high:.2})");
}

/// Times one row and prints it; whether both sides keep or make as many.
fn print(row: &mut Row) -> bool {
    let (given, proved) = ((row.given)(), (row.proved)());
    let calls = (ROUND / time(&mut row.given, 3)).ceil() as usize;
    let rounds: Vec<(f64, f64)> = (0..ROUNDS).map(|index| round(row, calls, index)).collect();
    print_times(&row.name, proved, &rounds);
    given == proved
}

/// The head of a table; `what` is counted.
pub fn head(what: &str) {
    let ratio = format!("ratio (the middle four fifths of {ROUNDS} rounds)");
    println!("{:<67} {what:>8} {:>9} {:>9}   {ratio}", "", "Rust us", "proved us");
}

/// Prints the rows as a table, and answers whether both sides made as many items of each input.
pub fn table(what: &str, mut rows: Vec<Row>) -> bool {
    head(what);
    rows.iter_mut().fold(true, |same, row| print(row) && same)
}

/// Outputs for so many commands.
pub struct Output {
    kinds: Vec<u8>,
    numbers: Vec<f64>,
    worst: Vec<u32>,
}

impl Output {
    pub fn new(commands: usize) -> Output {
        Output { kinds: vec![0; commands], numbers: vec![0.0; 9 * commands], worst: vec![0; commands] }
    }

    /// A list for the worst step of each command, and its length.
    pub fn worst(&mut self) -> (*mut u32, usize) {
        (self.worst.as_mut_ptr(), self.worst.len())
    }

    /// The count that a call leaves which writes commands: it takes both outputs, with their lengths, and a count.
    pub fn count(&mut self, call: impl FnOnce(*mut u8, usize, *mut f64, usize, *mut usize) -> u32) -> usize {
        let mut count = 0;
        call(self.kinds.as_mut_ptr(), self.kinds.len(), self.numbers.as_mut_ptr(), self.numbers.len(), &mut count);
        count
    }
}
