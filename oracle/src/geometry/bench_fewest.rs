//! The time of the fewest straights: the proved search and the plain one over the given line deviation, on the same lists, in one run.
use super::bench::{Row, table};
use super::calls::pz_fewest_straights;
use super::draw::Draw;
use super::fewest::model;
use super::shapes::{track, zigzag};
use super::simplify::triples;
use crate::random::Random;
use std::hint::black_box;

/// How many Lines the proved search finds.
fn proved(list: &[f64], tolerance: f64, out: &mut [f64]) -> usize {
    let (mut count, mut tested, mut bound) = (0, 0, 0);
    // SAFETY: the lengths are those of the slices
    unsafe {
        pz_fewest_straights(
            list.as_ptr(),
            list.len(),
            tolerance,
            u64::MAX,
            out.as_mut_ptr(),
            out.len(),
            &mut count,
            &mut tested,
            &mut bound,
        );
    }
    count
}

fn row(name: String, flat: Vec<f64>, tolerance: f64) -> Row<'static> {
    let list: Vec<f64> = flat.chunks(2).flat_map(|p| [p[0], p[1], 0.0]).collect();
    let (points, mut out) = (triples(&list), vec![0.0; list.len()]);
    Row {
        name,
        given: Box::new(move || model(black_box(&points), tolerance, u64::MAX).ends.len()),
        proved: Box::new(move || proved(black_box(&list), tolerance, &mut out)),
    }
}

pub fn run() -> bool {
    let mut rows = Vec::new();
    for count in [32, 128, 256] {
        let mut draw = Draw::new(Random::new(10));
        for tolerance in [0.5, 5.0] {
            let lap = track(&mut draw, count, 400.0 / count as f64, 0.3);
            rows.push(row(format!("fewest_straights track, {count} points, tolerance {tolerance}"), lap, tolerance));
        }
        rows.push(row(format!("fewest_straights zigzag, {count} points"), zigzag(count, 1.0), 0.5));
    }
    table("Lines", rows)
}
