//! The recorded calls of the Bezier functions, the midpoint and the direction of an arc.
use super::draw::Draw;
use super::frame::{Compared, Function};
use super::list::{Record, filled, record};
use super::{arc, bezier};
use crate::random::Random;
use std::collections::HashMap;

/// A record of more numbers than this is a long one, and those that are drawn for a function have at most so many together.
const LONG: usize = 92;
const LONG_TOGETHER: usize = 3_900;

/// The functions that are listed.
fn functions() -> Vec<Function> {
    bezier::FUNCTIONS.iter().chain(&arc::FUNCTIONS).copied().collect()
}

/// A list of so many points.
fn points(count: usize) -> Vec<f64> {
    (0..count).flat_map(|i| [i as f64 * 0.5, (i * i % 97) as f64]).collect()
}

/// Calls at the edges that a draw seldom meets: the least numbers, fewest and most steps and one more, both depths and one
/// more, most points and one more, outputs exactly full and one item short.
fn edges() -> Vec<Compared> {
    let flat = [0.0, 0.0, 300.0, 500.0, 700.0, -400.0, 1_000.0, 0.0];
    let steep = [1_000.0, 0.0, 30.0, 300.0, 500.0, 10.0, 700.0, -400.0, 20.0, -0.0, 0.0, -0.0];
    let length = bezier::polygon_length(&steep);
    let least = f64::from_bits(1);
    vec![
        bezier::midpoint_of(&[least, -least, -0.0, least, -least, -0.0]),
        bezier::steps_of(&steep, 1, 6),
        bezier::steps_of(&steep, 2_048, 12_288),
        bezier::steps_of(&steep, 2_048, 12_282),
        bezier::steps_of(&steep, 2_049, 12_294),
        bezier::steps_of(&steep, 0, 6),
        bezier::params_of(&steep, length / 799.5, 4_800),
        bezier::params_of(&steep, length / 800.5, 4_806),
        bezier::params_of(&[1.0; 12], 0.001, 12),
        bezier::params_of(&[1.0; 12], 0.001, 6),
        bezier::adaptive_of(&flat, 1e-6, 0, 4),
        bezier::adaptive_of(&flat, 1e-6, 10, 2_050),
        bezier::adaptive_of(&flat, 1e-6, 10, 2_048),
        bezier::adaptive_of(&flat, 1e-6, 11, 4_098),
        bezier::segment_of(&steep, Some(0.001), 3_075),
        bezier::segment_of(&steep, Some(0.001), 3_072),
        bezier::segment_of(&steep, None, 3_075),
        bezier::fit_of(&points(2_048), false),
        bezier::fit_of(&points(2_049), false),
        arc::direction_of(&points(2_048), [10.0, 20.0], false),
        arc::direction_of(&points(2_049), [10.0, 20.0], false),
    ]
}

/// How many numbers the long records of each function have.
struct Budget {
    used: HashMap<&'static str, usize>,
}

impl Budget {
    /// Whether a record of so many numbers may stand in the list.
    fn takes(&mut self, function: &'static str, numbers: usize) -> bool {
        let used = self.used.entry(function).or_default();
        if numbers <= LONG {
            return true;
        }
        *used += numbers;
        *used <= LONG_TOGETHER
    }
}

/// The edges, and then the functions in turn. A long record that the list does not take is drawn again.
pub fn records(count: usize, seed: u64) -> Vec<Record> {
    let mut draw = Draw::new(Random::new(seed));
    let mut budget = Budget { used: HashMap::new() };
    let functions = functions();
    filled(edges().iter().map(record).collect(), count, |index| {
        let call = functions[index % functions.len()](&mut draw);
        let record = record(&call);
        budget.takes(call.function, record.items).then_some(record)
    })
}
