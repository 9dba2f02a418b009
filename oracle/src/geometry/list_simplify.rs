//! The recorded calls of thinning.
use super::draw::Draw;
use super::frame::Compared;
use super::list::{Record, filled, record};
use super::shapes::{raised, reversed, track, zigzag};
use super::simplify::{Commands, FUNCTIONS, Rooms, data_of, kept, pairs_of, triples_of};
use crate::random::Random;

/// A drawn record has at most so many numbers and kinds.
pub const LONG: usize = 130;

/// Lines to these ends, one in so many a Move.
pub fn lines(ends: &[f64], moves: usize) -> Commands {
    let kinds = (0..ends.len() / 3).map(|i| (i % moves != 0) as u8).collect();
    let numbers = ends.chunks(3).flat_map(|p| [p[0], p[1], p[2], 0.0, 0.0, 0.0, 0.0, 0.0, 0.0]).collect();
    Commands { kinds, numbers }
}

pub fn full(c: &Commands) -> Rooms {
    Rooms { kinds: c.kinds.len(), numbers: c.numbers.len() }
}

/// Document 01's worked cases.
fn worked() -> Vec<Compared> {
    vec![
        pairs_of(&[0.0, 0.0, 10.0, 0.0, 20.0, 0.0], 0.5, 6),
        triples_of(&[0.0, 0.0, 0.0, 10.0, 0.0, 0.0, 20.0, 0.0, 0.0], 0.5, 9),
        pairs_of(&[0.0, 0.0, 100.0, 0.0, 50.0, 0.0], 0.5, 6),
        pairs_of(&[0.0, 0.0, 1_000_000.0, 1.0], 0.001, 4),
        pairs_of(&[0.0, 0.0, 1_000_000f64.next_up(), 1.0], 0.001, 4),
        pairs_of(&[0.0, 0.0, 1.0, 1.0], 0.0, 4),
    ]
}

/// Lists of three or five at which a slip shows: a point at the tolerance, equal farthest points, chords just short and
/// not, a far Move.
fn corners() -> Vec<Vec<f64>> {
    vec![
        vec![0.0, 0.0, 1.0, 1.0, 2.0, 0.0],
        vec![0.0, 0.0, 1.0, 2.0, 2.0, 0.0, 3.0, 2.0, 4.0, 0.0],
        vec![0.0, 0.0, 1.0, 2.0, 2.0, -2.0, 3.0, 2.0, 4.0, 0.0],
        vec![0.0, 0.0, 5.0, 0.0, 1e-6, 0.0],
        vec![0.0, 0.0, 5.0, 0.0, 1e-6f64.next_down(), 0.0],
        vec![0.0, 0.0, 5.0, 0.0, 0.0, 0.0],
        vec![0.0, 0.0, 3.0, 1.5, 1.0, 9.0, 7.0, 3.5, 9.0, 0.0],
        vec![0.0, 0.0, 1.0, 1.0, 2.0, 3.0, 3.0, 1.0, 4.0, -0.0],
    ]
}

/// Each of them in all three forms, at two tolerances.
fn in_all_forms() -> Vec<Compared> {
    let mut calls = Vec::new();
    for list in corners() {
        let solid: Vec<f64> = list.chunks(2).flat_map(|p| [p[0], p[1], 8.0]).collect();
        let (all, some) = (lines(&solid, 9), lines(&solid, 2));
        for tolerance in [1.0, 1f64.next_down()] {
            calls.push(pairs_of(&list, tolerance, list.len()));
            calls.push(triples_of(&solid, tolerance, solid.len()));
            calls.push(data_of(&all, tolerance, full(&all)));
            calls.push(data_of(&some, tolerance, full(&some)));
        }
    }
    calls
}

/// Most points and commands, one more, the deepest recursion on either side.
fn edges(draw: &mut Draw) -> Vec<Compared> {
    let (deep, long) = (zigzag(2_048, 1.0), track(draw, 2_048, 4.0, 1.0));
    let solid = raised(&track(draw, 2_048, 4.0, 1.0), draw);
    let (most, more) = (lines(&raised(&long[..1_600], draw), 5), lines(&raised(&long[..1_602], draw), 5));
    vec![
        pairs_of(&deep, 0.5, 4_096),
        pairs_of(&reversed(&deep), 0.5, 4_096),
        pairs_of(&long, 2.0, 4_096),
        pairs_of(&zigzag(2_049, 1.0), 0.5, 4_098),
        triples_of(&solid, 2.0, 6_144),
        data_of(&most, 2.0, full(&most)),
        data_of(&more, 2.0, full(&more)),
    ]
}

/// Answers thinned again, which are given again (document 02, §1): in room for them, and in more.
fn again(draw: &mut Draw) -> Vec<Compared> {
    let flat = track(draw, 60, 4.0, 1.0);
    let solid = raised(&flat, draw);
    let mut calls = Vec::new();
    for tolerance in [0.5, 2.0] {
        let pairs = kept(&pairs_of(&flat, tolerance, flat.len()), 2);
        let triples = kept(&triples_of(&solid, tolerance, solid.len()), 3);
        calls.push(pairs_of(&pairs, tolerance, pairs.len()));
        calls.push(triples_of(&triples, tolerance, triples.len() + 3));
    }
    calls
}

/// The worked cases, the corners, the edges, answers thinned again, and then the functions in turn. A long one is drawn again.
pub fn records(count: usize, seed: u64) -> Vec<Record> {
    let mut draw = Draw::new(Random::new(seed));
    let fixed = [worked(), in_all_forms(), edges(&mut draw), again(&mut draw)];
    filled(fixed.iter().flatten().map(record).collect(), count, |index| {
        let record = record(&FUNCTIONS[index % 3](&mut draw));
        (record.items <= LONG).then_some(record)
    })
}
