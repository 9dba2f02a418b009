//! Short lists to thin, all of them, on a small grid: up to 5 points, and up to 4 commands of every kind.
use super::frame::Tally;
use super::grid::lists;
use super::simplify::{Commands, Rooms, data_of, pairs_of, triples_of};

/// Below every distance on the grid but 0; two that a point can have exactly; one between.
const TOLERANCES: [f64; 4] = [0.001, 0.8, 1.0, 2.0];

/// All sequences of so many kinds.
fn kinds(count: u32) -> impl Iterator<Item = Vec<u8>> {
    (0..4usize.pow(count)).map(move |number| (0..count).map(|place| (number / 4usize.pow(place) % 4) as u8).collect())
}

/// With a height for each point.
fn raised(list: &[f64]) -> Vec<f64> {
    list.chunks(2).enumerate().flat_map(|(i, p)| [p[0], p[1], i as f64]).collect()
}

/// The nine numbers of a command, those behind its end all alike.
fn numbers(kind: u8, end: &[f64]) -> [f64; 9] {
    let x = if kind < 2 { 0.0 } else { 7.0 };
    [end[0], end[1], -1.0, x, x, x, x, x, x]
}

fn add_commands(tally: &mut Tally, list: &[f64], kinds: Vec<u8>) {
    let numbers = kinds.iter().zip(list.chunks(2)).flat_map(|(kind, end)| numbers(*kind, end)).collect();
    let rooms = Rooms { kinds: kinds.len(), numbers: 9 * kinds.len() };
    let c = Commands { kinds, numbers };
    for tolerance in TOLERANCES {
        tally.add(&data_of(&c, tolerance, rooms), &[]);
    }
}

/// Compares on all of them, and answers whether nothing differed.
pub fn run() -> bool {
    let mut tally = Tally::default();
    for count in 0..=5 {
        for list in lists(count) {
            let solid = raised(&list);
            for tolerance in TOLERANCES {
                tally.add(&pairs_of(&list, tolerance, list.len()), &[]);
                tally.add(&triples_of(&solid, tolerance, solid.len()), &[]);
            }
            if count < 4 {
                kinds(count).for_each(|kinds| add_commands(&mut tally, &list, kinds));
            }
        }
    }
    // of four, with Moves and Lines only
    for list in lists(4) {
        kinds(4)
            .filter(|kinds| kinds.iter().all(|kind| *kind < 2))
            .for_each(|kinds| add_commands(&mut tally, &list, kinds));
    }
    tally.report()
}
