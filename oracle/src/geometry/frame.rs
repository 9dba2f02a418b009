//! The frame that every layer uses: what a call left on either side, compared and counted.
use super::draw::Draw;
use super::lent::{Lent, Purpose};
use crate::random::Random;
use std::collections::{BTreeMap, BTreeSet};

/// What a call leaves: the number that it answers, 0 or a refusal's, and all lent memory.
#[derive(Clone, PartialEq)]
pub struct Outcome {
    pub number: u32,
    pub lent: Vec<Lent>,
}

/// An argument of a call, or a part of one, by name: its words.
pub type Argument = (&'static str, Vec<u64>);

/// A call to make on both sides: what goes in, what the table says of it, and what is lent.
pub struct Call {
    pub function: &'static str,
    pub arguments: Vec<Argument>,
    pub refusal: u32,
    pub lent: Vec<Lent>,
}

/// A call that was made on both sides.
pub struct Compared {
    pub function: &'static str,
    pub arguments: Vec<Argument>,
    pub proved: Outcome,
    pub given: Outcome,
}

impl Compared {
    /// The expected memory of a purpose.
    pub fn lent(&self, purpose: Purpose) -> Option<&Lent> {
        self.given.lent.iter().find(|lent| lent.purpose == purpose)
    }

    /// The count or the index that is expected, or the truth; 0 of a refusal.
    pub fn count(&self) -> u64 {
        if self.given.number != 0 {
            return 0;
        }
        match (self.lent(Purpose::Count), self.lent(Purpose::Flag)) {
            (Some(count), _) => count.words()[0],
            (_, Some(flag)) => flag.words()[0] & 0xff,
            _ => 0,
        }
    }
}

impl Call {
    /// Calls the proved function on the lent memory. Where the table refuses, the memory is to stay as it is, and the
    /// given Rust is not called; else that says what is to be left.
    pub fn compare(
        self,
        proved: impl FnOnce(&mut [Lent]) -> u32,
        given: impl FnOnce(&[Lent]) -> Vec<Lent>,
    ) -> Compared {
        let mut lent = self.lent.clone();
        let number = proved(&mut lent);
        let left = if self.refusal == 0 { given(&self.lent) } else { self.lent };
        Compared {
            function: self.function,
            arguments: self.arguments,
            proved: Outcome { number, lent },
            given: Outcome { number: self.refusal, lent: left },
        }
    }
}

/// A function to compare: draws an input and calls both sides.
pub type Function = fn(&mut Draw) -> Compared;

/// How often something was met, by function and name.
type Counts = BTreeMap<(&'static str, String), u64>;

#[derive(Default)]
pub struct Tally {
    calls: u64,
    differences: u64,
    answers: Counts,
    kinds: Counts,
}

/// So many differences are printed; the others are counted.
const PRINTED: u64 = 5;

impl Tally {
    /// Counts a call that was made on both sides, and prints it where they differ.
    pub fn add(&mut self, call: &Compared, labels: &[&'static str]) {
        self.calls += 1;
        let answer = match call.given.number {
            0 => "answered".to_string(),
            number => format!("refused {number}"),
        };
        *self.answers.entry((call.function, answer)).or_default() += 1;
        for label in labels {
            *self.kinds.entry((call.function, label.to_string())).or_default() += 1;
        }
        // where each kind of input stands to the margins
        for margins in labels.iter().filter(|label| label.starts_with("margins")) {
            for kind in labels.iter().filter(|label| label.starts_with("points") || label.starts_with("course")) {
                *self.kinds.entry((call.function, format!("{kind}; {margins}"))).or_default() += 1;
            }
        }
        if call.proved != call.given {
            self.differences += 1;
            if self.differences <= PRINTED {
                print_difference(call);
            }
        }
    }

    /// Prints the counts, and answers whether nothing differed.
    pub fn report(&self) -> bool {
        let functions: BTreeSet<&str> = self.answers.keys().map(|key| key.0).collect();
        for function in functions {
            println!("{function}");
            print_counts(&self.answers, function, "    ");
            print_counts(&self.kinds, function, "        ");
        }
        println!("{:>10} calls compared", self.calls);
        println!("differences: {}", self.differences);
        self.differences == 0
    }
}

fn print_counts(counts: &Counts, function: &str, indent: &str) {
    for ((_, name), count) in counts.iter().filter(|(key, _)| key.0 == function) {
        println!("{count:>10}{indent}{name}");
    }
}

fn print_words(words: &[u64]) {
    for line in words.chunks(6) {
        println!("     {}", line.iter().map(|word| format!(" {word:016x}")).collect::<String>());
    }
}

/// The first place at which two memories differ, with both words.
fn first_difference(a: &Lent, b: &Lent) -> Option<(usize, Option<u64>, Option<u64>)> {
    let place = (0..a.len().max(b.len())).find(|i| a.words().get(*i) != b.words().get(*i))?;
    Some((place, a.words().get(place).copied(), b.words().get(place).copied()))
}

/// The function, the input's words and both answers.
fn print_difference(call: &Compared) {
    println!("DIFFERENCE in {}", call.function);
    for (name, words) in &call.arguments {
        println!("  {name}, {} words:", words.len());
        print_words(words);
    }
    println!("  proved answers {}, expected {}", call.proved.number, call.given.number);
    for (i, (a, b)) in call.proved.lent.iter().zip(&call.given.lent).enumerate() {
        match first_difference(a, b) {
            Some((place, a, b)) => {
                println!("  lent memory {i} differs first at {place}: proved {a:016x?}, expected {b:016x?}")
            }
            None if a != b => println!("  beside lent memory {i} something was written"),
            None => {}
        }
    }
}

/// Draws and compares `count` calls, the functions in turn, and answers whether nothing differed.
pub fn run(functions: &[Function], count: u64, seed: u64) -> bool {
    let mut draw = Draw::new(Random::new(seed));
    let mut tally = Tally::default();
    for index in 0..count {
        let call = functions[(index % functions.len() as u64) as usize](&mut draw);
        tally.add(&call, &draw.labels());
    }
    println!("seed {seed}");
    tally.report()
}
