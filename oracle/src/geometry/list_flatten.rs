//! The recorded calls of Arcs drawn by Lines: the worked Arcs, each span both ways, and then drawn ones. A call that is given
//! fewer than nine numbers is not listed: a record has the nine and the start one behind the other.
use super::draw::Draw;
use super::flatten::{FUNCTIONS, Input, MOST, flattened};
use super::frame::Compared;
use super::list::{Record, filled, record};
use super::simplify::Rooms;
use crate::random::Random;

/// A drawn record has at most so many numbers and kinds.
const LONG: usize = 400;

const FULL: Rooms = Rooms { kinds: MOST, numbers: 9 * MOST };

/// From (5, 0, 0) round the origin.
fn round(end: [f64; 3], normal: f64, tolerance: f64) -> Input {
    let numbers = vec![end[0], end[1], end[2], -5.0, 0.0, 0.0, 0.0, 0.0, normal];
    Input { kind: 2, numbers, start: [5.0, 0.0, 0.0], tolerance }
}

/// The quarters of a circle both ways, at tolerances of one Line and of more, and radii that differ.
fn worked() -> Vec<Compared> {
    let ends = [[0.0, 5.0, 10.0], [-5.0, 0.0, 1.0], [0.0, -5.0, 3.0], [5.0, 0.0, 4.0], [3.0, 4.0, 2.0], [7.0, 0.0, 4.0]];
    let mut calls = Vec::new();
    for end in ends {
        for normal in [1.0, -1.0] {
            for tolerance in [0.25, 4.0, 8.0] {
                calls.push(flattened(&round(end, normal, tolerance), FULL));
            }
        }
    }
    for tolerance in [4.0, 5.0, 5f64.next_up(), 0.0, 1_000f64.next_up()] {
        calls.push(flattened(&round([0.0, 10.0, 10.0], 1.0, tolerance), FULL));
    }
    calls
}

/// Row by row: kinds, normals, offsets, rooms.
fn refusals() -> Vec<Compared> {
    let arc = round([0.0, 5.0, 10.0], 1.0, 4.0);
    let with = |place: usize, x: f64| {
        let mut other = arc.clone();
        other.numbers[place] = x;
        flattened(&other, FULL)
    };
    let mut calls: Vec<Compared> = [0, 1, 3, 4].map(|kind| flattened(&Input { kind, ..arc.clone() }, FULL)).into();
    calls.extend([(8, 0.5), (6, -0.0), (7, 1.0), (5, 1e6), (5, 1_000_000f64.next_up()), (4, -1e7), (0, 2e6)].map(|(p, x)| with(p, x)));
    for (kinds, numbers) in [(MOST - 1, 9 * MOST), (MOST, 9 * MOST - 9), (MOST, 9 * MOST - 1)] {
        calls.push(flattened(&arc, Rooms { kinds, numbers }));
    }
    calls
}

/// A thousand Lines a quarter.
fn long() -> Vec<Compared> {
    let numbers = vec![0.0, 1e6, 5.0, -1e6, 0.0, 0.0, 0.0, 0.0, 1.0];
    vec![flattened(&Input { kind: 2, numbers, start: [1e6, 0.0, -5.0], tolerance: 0.001 }, FULL)]
}

pub fn records(count: usize, seed: u64) -> Vec<Record> {
    let mut draw = Draw::new(Random::new(seed));
    let fixed = [worked(), refusals(), long()];
    filled(fixed.iter().flatten().map(record).collect(), count, |_| {
        let call = FUNCTIONS[0](&mut draw);
        assert!(call.proved == call.given, "a difference in {}", call.function);
        let twelve = call.arguments.iter().any(|(name, words)| *name == "numbers" && words.len() == 12);
        let record = record(&call);
        (twelve && record.items <= LONG).then_some(record)
    })
}
