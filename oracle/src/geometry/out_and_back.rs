//! Courses that turn back on themselves, where the distance to the segment is another one than that to the endless line
//! (document 02, §4): shuttles, spikes and hairpins, exact and with a receiver's noise.
use super::bends;
use super::draw::Draw;
use super::shapes::{self, noise};

/// The labels of these courses.
const SHUTTLE: &str = "points: out and back on one line";
const SPIKES: &str = "points: a straight with spikes";
const HAIRPINS: &str = "points: hairpins";
pub const LABELS: [&str; 3] = [SHUTTLE, SPIKES, HAIRPINS];

/// A place by metres along a line, and across it.
pub type Place = [f64; 2];

/// Out and back on one line: each leg ends at a mark, which is part of the way back, the start, or behind that.
pub fn shuttle(draw: &mut Draw, count: usize) -> Vec<Place> {
    draw.label(SHUTTLE);
    let (mut at, mut left, mut step) = (0.0, 0, 0.0);
    (0..count)
        .map(|_| {
            if left == 0 {
                let mark = draw.of(&[100.0, 100.0, 50.0, 75.0, 10.0, 0.0, 100.5, 101.0, -20.0]);
                left = draw.of(&[1, 1, 2, 3, 10]);
                step = (mark - at) / left as f64;
            }
            let place = [at, 0.0];
            (left, at) = (left - 1, at + step);
            place
        })
        .collect()
}

/// Straight on, with single points thrown ahead or behind, on the line or beside it; also the first and the last one.
fn spikes(draw: &mut Draw, count: usize) -> Vec<Place> {
    draw.label(SPIKES);
    let every = draw.of(&[2, 4, 9]);
    (0..count)
        .map(|i| {
            let along = 4.0 * i as f64;
            if !draw.one_in(every) {
                return [along, 0.0];
            }
            let far = draw.of(&[0.5, 1.0, 5.0, 60.0]);
            [along + draw.signed(far), if draw.flag() { 0.0 } else { far * draw.unit() }]
        })
        .collect()
}

/// There and back on lines beside each other, a little apart or not at all.
fn hairpins(draw: &mut Draw, count: usize) -> Vec<Place> {
    draw.label(HAIRPINS);
    let (leg, apart, step) = (2 + draw.below(12), draw.of(&[0.0, 0.01, 0.5, 2.0]), draw.of(&[1.0, 3.7, 20.0]));
    (0..count)
        .map(|i| {
            let (line, k) = (i / leg, i % leg);
            let steps = if line % 2 == 0 { k } else { leg - 1 - k };
            [step * steps as f64, apart * line as f64]
        })
        .collect()
}

/// The places in the plane, from a start and in a direction in which they round or not.
fn placed(draw: &mut Draw, places: &[Place]) -> Vec<f64> {
    let start = draw.of(&[[0.0, 0.0], [0.0, 0.0], [0.2, 0.0], [0.1, 0.7], [-250_000.3, 700_000.1]]);
    let along = draw.of(&[[1.0, 0.0], [0.0, 1.0], [1.0, 1.0], [3.0, -4.0], [0.6, 0.8], [0.3, 0.1], [-0.01, 0.07]]);
    let size = draw.of(&[0.0, 0.0, 0.0, 1e-9, 0.05, 0.3, 2.0]);
    let mut list = Vec::with_capacity(2 * places.len());
    for [a, b] in places {
        list.push(start[0] + a * along[0] - b * along[1] + noise(draw, size));
        list.push(start[1] + a * along[1] + b * along[0] + noise(draw, size));
    }
    list
}

/// So many triples: one of these courses, or any list to fit.
pub fn points(draw: &mut Draw, count: usize) -> Vec<f64> {
    let places = match draw.below(9) {
        0 => shuttle(draw, count),
        1 => spikes(draw, count),
        2 => hairpins(draw, count),
        _ => return bends::points(draw, count),
    };
    let mut plane = placed(draw, &places);
    if draw.one_in(3) {
        shapes::change(draw, &mut plane);
    }
    shapes::raised(&plane, draw)
}
