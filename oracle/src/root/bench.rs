//! The time of a root: throughput, where the roots do not wait for each other, and latency, where each waits for the last.
//!
//! The rows take turns within each round, so that what else the machine does falls on all of them, and a ratio is taken
//! within a round. The called functions are not inlined, and their loops have the same instructions: load, call, add. Each
//! answer goes into a sum or into the next argument, so the compiler removes no call and vectorises none. "machine, no
//! call" is the bare instruction, written as such so that it is not vectorised either.
use super::digits::digit_sqrt;
use crate::calls::{black_box_register, machine_sqrt, pz_sqrt, same};
use crate::random::Random;
use std::arch::asm;
use std::hint::black_box;
use std::time::Instant;

/// More arguments than a branch predictor remembers.
const ARGUMENTS: usize = 1 << 15;
const ROUNDS: usize = 31;
const PASSES: usize = 3;

/// The bare instruction.
#[inline(always)]
fn instruction(x: f64) -> f64 {
    let mut r = x;
    // SAFETY: it reads and writes one register
    unsafe { asm!("sqrtsd {0}, {0}", inout(xmm_reg) r, options(pure, nomem, nostack)) };
    r
}

/// What is timed: a function over the arguments, whose answer depends on every root.
struct Row {
    name: &'static str,
    sum: fn(&[f64]) -> u64,
    chain: fn(&[f64]) -> u64,
}

/// The two loops over a function. The sum is one of patterns: a whole number stays in a register over a call, where a float
/// would go to memory and back. In a chain each argument is the last root plus a number of the list.
macro_rules! row {
    ($name:literal, $function:ident) => {{
        #[inline(never)]
        fn sum(arguments: &[f64]) -> u64 {
            arguments
                .iter()
                .fold(0, |sum, x| sum.wrapping_add($function(*x).to_bits()))
        }
        #[inline(never)]
        fn chain(arguments: &[f64]) -> u64 {
            arguments
                .iter()
                .fold(1.0, |last, x| $function(last + x))
                .to_bits()
        }
        Row {
            name: $name,
            sum,
            chain,
        }
    }};
}

/// The first is the one that ratios refer to, and the last is what a chain has besides its roots.
fn rows() -> [Row; 6] {
    [
        row!("machine, call", machine_sqrt),
        row!("proved, call", pz_sqrt),
        row!("by digits, call", digit_sqrt),
        row!("machine, no call", instruction),
        row!("an empty call", same),
        row!("the loop alone", black_box_register),
    ]
}

/// Nanoseconds for each argument: the least of a few passes, since a pass may be interrupted.
fn time(work: fn(&[f64]) -> u64, arguments: &[f64]) -> f64 {
    let pass = |_| {
        let start = Instant::now();
        black_box(work(black_box(arguments)));
        start.elapsed().as_secs_f64() * 1e9 / arguments.len() as f64
    };
    (0..PASSES).map(pass).fold(f64::INFINITY, f64::min)
}

/// The middle, the least and the most.
fn spread(mut values: Vec<f64>) -> (f64, f64, f64) {
    values.sort_by(f64::total_cmp);
    (
        values[values.len() / 2],
        values[0],
        values[values.len() - 1],
    )
}

/// Each row's times, round by round.
fn rounds(works: &[fn(&[f64]) -> u64], arguments: &[f64]) -> Vec<Vec<f64>> {
    (0..ROUNDS)
        .map(|_| works.iter().map(|work| time(*work, arguments)).collect())
        .collect()
}

fn table(title: &str, rounds: &[Vec<f64>]) {
    println!("{title}");
    println!(
        "  {:<18} {:>9} {:>8}   times the machine's call, least..most of {ROUNDS} rounds",
        "", "median ns", "least ns"
    );
    for (column, row) in rows().iter().enumerate() {
        let (median, least, _) = spread(rounds.iter().map(|round| round[column]).collect());
        let (ratio, low, high) = spread(
            rounds
                .iter()
                .map(|round| round[column] / round[0])
                .collect(),
        );
        println!(
            "  {:<18} {median:>9.2} {least:>8.2}   {ratio:.2} ({low:.2}..{high:.2})",
            row.name
        );
    }
}

/// A number from 2^-20 to 2^20, so that a chain's sums keep the digits of what is added.
fn middling(random: &mut Random) -> f64 {
    let field = 1003 + random.below(40);
    f64::from_bits(field << 52 | random.bits() >> 12)
}

/// A positive number of any size that is not subnormal.
fn any_size(random: &mut Random) -> f64 {
    let field = 1 + random.below(2046);
    f64::from_bits(field << 52 | random.bits() >> 12)
}

/// Prints both tables, and the latency ratio without the chain's addition.
pub fn bench() {
    let mut random = Random::new(1);
    let wide: Vec<f64> = (0..ARGUMENTS).map(|_| any_size(&mut random)).collect();
    let near: Vec<f64> = (0..ARGUMENTS).map(|_| middling(&mut random)).collect();
    table(
        "throughput: roots that do not wait for each other",
        &rounds(&rows().map(|row| row.sum), &wide),
    );
    let chains = rounds(&rows().map(|row| row.chain), &near);
    table(
        "latency: each root's argument is the last root plus a number",
        &chains,
    );
    let (ratio, low, high) = spread(
        chains
            .iter()
            .map(|round| (round[1] - round[5]) / (round[0] - round[5]))
            .collect(),
    );
    println!(
        "  without the addition, proved is {ratio:.2} ({low:.2}..{high:.2}) times the machine's"
    );
}
