//! The time of an Arc drawn by Lines: the proved function and the plain model on the same arcs, in one run, at falling tolerances.
use super::bench::{Output, Row, table};
use super::calls::pz_flatten_arc;
use super::flatten::{Input, MOST, lines_of};
use std::hint::black_box;

fn proved(input: &Input, out: &mut Output) -> usize {
    let Input { kind, numbers, start: [x, y, z], tolerance } = input;
    let (command, n) = (numbers.as_ptr(), numbers.len());
    // SAFETY: the length is that of the numbers
    out.count(|k, ks, nums, room, count| unsafe {
        pz_flatten_arc(*kind, command, n, *x, *y, *z, *tolerance, k, ks, nums, room, count)
    })
}

fn row(name: String, input: Input) -> Row<'static> {
    let (mut out, given) = (Output::new(MOST), input.clone());
    Row {
        name,
        given: Box::new(move || lines_of(black_box(&given)).len()),
        proved: Box::new(move || proved(black_box(&input), &mut out)),
    }
}

/// A bend of a track, a large circle, and the largest.
fn rows() -> Vec<Row<'static>> {
    let mut rows = Vec::new();
    for (name, radius) in [("half of a track's bend", 36.8), ("a circle of 10 km", 10_000.0), ("the greatest circle", 1e6)] {
        for tolerance in [1_000.0, 100.0, 10.0, 1.0, 0.1, 0.01, 0.001] {
            let end = if radius < 100.0 { [-radius, 0.0] } else { [radius, 0.0] };
            let numbers = vec![end[0], end[1], 7.0, -radius, 0.0, 0.0, 0.0, 0.0, 1.0];
            let input = Input { kind: 2, numbers, start: [radius, 0.0, 1.0], tolerance };
            rows.push(row(format!("flatten_arc {name}, tolerance {tolerance}"), input));
        }
    }
    rows
}

pub fn run() -> bool {
    table("Lines", rows())
}
