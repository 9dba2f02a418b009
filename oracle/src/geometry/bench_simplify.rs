//! The time of thinning: the proved functions and the given Rust on the same points, in one run.
use super::bench::{Output, Row, table};
use super::bezier::pairs;
use super::calls::{pz_simplify_data, pz_simplify_polyline, pz_simplify_polyline_3d};
use super::draw::Draw;
use super::shapes::{raised, reversed, track, zigzag};
use super::simplify::{Commands, triples};
use crate::random::Random;
use raygeo::geo::algo::simplify;
use std::hint::black_box;

fn in_plane(name: String, list: Vec<f64>, tolerance: f64) -> Row<'static> {
    let points = pairs(&list);
    let mut out = vec![0.0; list.len()];
    Row {
        name: format!("simplify_polyline     {name}"),
        given: Box::new(move || simplify::simplify_polyline(black_box(&points), black_box(tolerance)).len()),
        proved: Box::new(move || {
            let mut count = 0;
            // SAFETY: the lengths are those of the list and of the output
            unsafe {
                pz_simplify_polyline(list.as_ptr(), list.len(), tolerance, out.as_mut_ptr(), out.len(), &mut count)
            };
            count
        }),
    }
}

fn in_space(name: String, list: Vec<f64>, tolerance: f64) -> Row<'static> {
    let points = triples(&list);
    let mut out = vec![0.0; list.len()];
    Row {
        name: format!("simplify_polyline_3d  {name}"),
        given: Box::new(move || simplify::simplify_polyline_3d(black_box(&points), black_box(tolerance)).len()),
        proved: Box::new(move || {
            let mut count = 0;
            // SAFETY: the lengths are those of the list and of the output
            unsafe {
                pz_simplify_polyline_3d(list.as_ptr(), list.len(), tolerance, out.as_mut_ptr(), out.len(), &mut count)
            };
            count
        }),
    }
}

/// A Move to the first point and a Line to each other one.
fn as_commands(name: String, list: &[f64], tolerance: f64) -> Row<'static> {
    let n = list.len() / 3;
    let kinds: Vec<u8> = (0..n).map(|i| (i > 0) as u8).collect();
    let numbers: Vec<f64> = list.chunks(3).flat_map(|p| [p[0], p[1], p[2], 0.0, 0.0, 0.0, 0.0, 0.0, 0.0]).collect();
    let c = Commands { kinds, numbers };
    let (data, mut out) = (c.given(), Output::new(n));
    Row {
        name: format!("simplify_data         {name}"),
        given: Box::new(move || simplify::simplify_data(black_box(&data), black_box(tolerance)).len()),
        proved: Box::new(move || {
            let (kinds, nums) = (c.kinds.as_ptr(), c.numbers.as_ptr());
            // SAFETY: the lengths are those of the lists
            out.count(|k, ks, x, xs, count| unsafe {
                pz_simplify_data(kinds, n, nums, 9 * n, tolerance, k, ks, x, xs, count)
            })
        }),
    }
}

fn rows() -> Vec<Row<'static>> {
    let mut draw = Draw::new(Random::new(1));
    let mut inputs = Vec::new();
    for count in [100, 400, 800, 2_048] {
        let list = track(&mut draw, count, 4.0, 1.0);
        for tolerance in [0.5, 2.0] {
            inputs.push((format!("track, {count} points, {tolerance}"), list.clone(), tolerance));
        }
    }
    for count in [800, 2_048] {
        inputs.push((format!("zigzag, {count} points"), zigzag(count, 1.0), 0.5));
        inputs.push((format!("zigzag, {count} points, falling"), reversed(&zigzag(count, 1.0)), 0.5));
    }
    let mut rows = Vec::new();
    for (name, list, tolerance) in &inputs {
        rows.push(in_plane(name.clone(), list.clone(), *tolerance));
    }
    for (name, list, tolerance) in &inputs {
        rows.push(in_space(name.clone(), raised(list, &mut draw), *tolerance));
    }
    for (name, list, tolerance) in inputs.iter().filter(|input| input.1.len() <= 1_600) {
        rows.push(as_commands(name.clone(), &raised(list, &mut draw), *tolerance));
    }
    rows
}

/// Prints the table, and answers whether both sides kept as many points of each input.
pub fn run() -> bool {
    table("kept", rows())
}
