//! Arguments to compare on: random ones, and those where a root, a ceiling or a comparison is most easily wrong.
use crate::random::Random;

/// The kinds of argument. A run of arguments takes them in turn.
#[derive(Clone, Copy, PartialEq)]
pub enum Class {
    Random,
    Subnormal,
    Special,
    Square,
    Middle,
    Power,
    Whole,
}

/// In turn: half of a run is random patterns or neighbours of middles.
const TURNS: [(Class, &str); 10] = [
    (Class::Random, "random patterns"),
    (Class::Middle, "roots beside a middle"),
    (Class::Square, "squares and neighbours"),
    (Class::Random, "random patterns"),
    (Class::Subnormal, "subnormals"),
    (Class::Middle, "roots beside a middle"),
    (Class::Power, "powers of two and neighbours"),
    (Class::Random, "random patterns"),
    (Class::Special, "NaN, infinities, zeros, negatives"),
    (Class::Whole, "wholes, halves, neighbours"),
];

/// The class of the argument at `index` of a run, with its name.
pub fn class_at(index: u64) -> (Class, &'static str) {
    TURNS[(index % TURNS.len() as u64) as usize]
}

/// The names of the classes, each once.
pub fn names() -> Vec<&'static str> {
    let mut names: Vec<&'static str> = Vec::new();
    for (_, name) in TURNS {
        if !names.contains(&name) {
            names.push(name);
        }
    }
    names
}

const SIGN: u64 = 1 << 63;
const INFINITY: u64 = 0x7ff << 52;
const FRACTION: u64 = (1 << 52) - 1;

/// A pattern of the class.
pub fn pattern(class: Class, random: &mut Random) -> u64 {
    match class {
        Class::Random => random.bits(),
        Class::Subnormal => subnormal(random),
        Class::Special => special(random),
        Class::Square => square(random),
        Class::Middle => middle(random),
        Class::Power => power(random),
        Class::Whole => whole(random),
    }
}

/// A pattern a few units in the last place from this one, which is a positive number's.
fn near(pattern: u64, most: i64, random: &mut Random) -> u64 {
    pattern
        .saturating_add_signed(random.between(-most, most))
        .min(INFINITY)
}

fn subnormal(random: &mut Random) -> u64 {
    // as many leading zeros as it happens
    let digits = random.bits() & FRACTION;
    digits >> random.below(52)
}

fn special(random: &mut Random) -> u64 {
    let sign = random.bits() & SIGN;
    match random.below(4) {
        0 => sign,
        1 => sign | INFINITY,
        // a NaN, quiet or signalling
        2 => sign | INFINITY | (random.bits() & FRACTION).max(1),
        // a negative number
        _ => SIGN | random.below(INFINITY),
    }
}

/// The square of a whole number below 2^26.5, times a power of four, or a neighbour of it.
fn square(random: &mut Random) -> u64 {
    let most = 94_906_265 >> random.below(26);
    let n = 1 + random.below(most);
    let exact = ((n * n) as f64).to_bits();
    let moved = exact.wrapping_add_signed(random.between(-480, 450) * 2 * (1 << 52));
    if random.below(2) == 0 {
        moved
    } else {
        near(moved, 4, random)
    }
}

/// A number whose root is as near as can be to the middle of two neighbours: m with m * 2^52 = q * q + q + c, for a small c.
/// For an even c there is one such q among the odd and one among the even numbers below 2^52, found digit by digit.
fn middle(random: &mut Random) -> u64 {
    let most = 1 << random.below(30);
    let c = 2 * random.between(-most, most);
    let mut q = random.below(2);
    for digit in 1..52 {
        let rest = q.wrapping_mul(q).wrapping_add(q).wrapping_add_signed(c);
        q |= rest & (1 << digit);
    }
    let q = (1u64 << 52 | q & FRACTION) as u128;
    let n = (q * q + q).wrapping_add_signed(c as i128);
    let m = (n >> 52) as u64;
    // m * 2^52 is n, of 105 or 106 digits; above 2^53 an odd m is no `f64`, and its neighbours serve
    let exact = (m as f64).to_bits();
    let moved = exact.wrapping_add_signed(random.between(-500, 450) * 2 * (1 << 52));
    if random.below(4) == 0 {
        near(moved, 2, random)
    } else {
        moved
    }
}

fn power(random: &mut Random) -> u64 {
    let pattern = random.below(2047) << 52;
    let pattern = if pattern == 0 {
        1 << random.below(52)
    } else {
        pattern
    };
    near(pattern, 3, random)
}

/// A whole number or one and a half, from 0 to 2^54, of either sign, or a neighbour of it.
fn whole(random: &mut Random) -> u64 {
    let n = random.bits() >> (10 + random.below(54));
    let x = n as f64 + if random.below(2) == 0 { 0.5 } else { 0.0 };
    let pattern = if random.below(2) == 0 {
        x.to_bits()
    } else {
        near(x.to_bits(), 2, random)
    };
    pattern | (random.bits() & SIGN)
}
