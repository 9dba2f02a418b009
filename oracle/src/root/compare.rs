//! The proved functions against the machine's own, bit for bit.
use super::digits::digit_sqrt;
use super::patterns::{class_at, names, pattern};
use crate::calls::{pz_abs, pz_ceil, pz_clamp, pz_max, pz_sqrt};
use crate::random::Random;

/// What was compared, and what differed.
struct Tally {
    arguments: Vec<(&'static str, u64)>,
    compared: u64,
    skipped: u64,
    differences: u64,
}

/// Two answers are the same where their patterns are, or where both are a NaN.
fn equal(a: f64, b: f64) -> bool {
    a.to_bits() == b.to_bits() || (a.is_nan() && b.is_nan())
}

impl Tally {
    fn compare(&mut self, what: &str, arguments: &[f64], answer: f64, expected: f64) {
        self.compared += 1;
        if equal(answer, expected) {
            return;
        }
        self.differences += 1;
        if self.differences <= 10 {
            let patterns: Vec<String> = arguments
                .iter()
                .map(|x| format!("{:016x}", x.to_bits()))
                .collect();
            println!(
                "{what}({}) = {:016x}, expected {:016x}",
                patterns.join(", "),
                answer.to_bits(),
                expected.to_bits()
            );
        }
    }

    fn all_of(&mut self, x: f64, y: f64) {
        let root = x.sqrt();
        self.compare("sqrt", &[x], pz_sqrt(x), root);
        self.compare("the root by digits", &[x], digit_sqrt(x), root);
        self.compare("ceil", &[x], pz_ceil(x), x.ceil());
        self.compare("abs", &[x], pz_abs(x), x.abs());
        self.compare("clamp", &[x], pz_clamp(x, -1.0, 1.0), x.clamp(-1.0, 1.0));
        // of two zeros Rust's `max` may give either
        if x == 0.0 && y == 0.0 && x.to_bits() != y.to_bits() {
            self.skipped += 1;
        } else {
            self.compare("max", &[x, y], pz_max(x, y), x.max(y));
        }
    }
}

/// The other number of a `max`: any, or one beside x, or x with the other sign.
fn other(x: u64, random: &mut Random) -> f64 {
    f64::from_bits(match random.below(4) {
        0 => random.bits(),
        1 => x.wrapping_add_signed(random.between(-1, 1)),
        2 => x ^ 1 << 63,
        _ => pattern(class_at(random.bits()).0, random),
    })
}

/// Compares on `count` arguments, and answers whether nothing differed.
pub fn compare(count: u64, seed: u64) -> bool {
    let mut random = Random::new(seed);
    let mut tally = Tally {
        arguments: names().into_iter().map(|n| (n, 0)).collect(),
        compared: 0,
        skipped: 0,
        differences: 0,
    };
    for index in 0..count {
        let (class, name) = class_at(index);
        let x = pattern(class, &mut random);
        let y = other(x, &mut random);
        tally.all_of(f64::from_bits(x), y);
        for (class_name, arguments) in &mut tally.arguments {
            *arguments += (*class_name == name) as u64;
        }
    }
    for (name, arguments) in &tally.arguments {
        println!("{arguments:>10} {name}");
    }
    println!("{count:>10} arguments, seed {seed}");
    println!(
        "{:>10} answers of sqrt, a root by digits, ceil, abs, max and clamp compared",
        tally.compared
    );
    println!(
        "{:>10} pairs of zeros with different signs left out of max",
        tally.skipped
    );
    println!("differences: {}", tally.differences);
    tally.differences == 0
}
