//! The time of the Bezier functions that make lists, and of the curve through points: the proved functions and the given
//! Rust on the same curves, in one run.
use super::bench::{Row, table};
use super::bezier::{pairs, plane, polygon_length, space};
use super::calls::*;
use super::draw::Draw;
use super::shapes::track;
use crate::random::Random;
use crate::{eight, twelve};
use raygeo::geo::shape::bezier;
use std::hint::black_box;

/// A bend of a road, with a hill: start, controls, end.
const BEND: [f64; 12] = [10.0, 20.0, 3.0, 190.0, 15.0, 5.0, 260.0, 140.0, 8.0, 250.0, 300.0, 12.0];

/// The same in the plane.
const PLANE: [f64; 8] = [10.0, 20.0, 190.0, 15.0, 260.0, 140.0, 250.0, 300.0];

fn uniform(steps: usize) -> Row<'static> {
    let mut out = vec![0.0; 6 * steps];
    Row {
        name: format!("linearize_bezier, {steps} steps"),
        given: Box::new(move || {
            let (p0, c1, c2, p1) = black_box(space(&BEND));
            bezier::linearize_bezier(p0, c1, c2, p1, black_box(steps)).len()
        }),
        proved: Box::new(move || {
            let (c, mut count) = (black_box(BEND), 0);
            // SAFETY: the length is that of the output
            unsafe { twelve!(pz_linearize_bezier, c, steps, out.as_mut_ptr(), out.len(), &mut count) };
            count
        }),
    }
}

/// Of a command's curve, whose end comes first; the resolution gives so many steps.
fn from_params(steps: usize) -> Row<'static> {
    let c = [9, 10, 11, 3, 4, 5, 6, 7, 8, 0, 1, 2].map(|i| BEND[i]);
    let resolution = polygon_length(&c) / (steps as f64 - 0.5);
    let mut out = vec![0.0; 6 * steps];
    Row {
        name: format!("linearize_bezier_from_params, {steps} steps"),
        given: Box::new(move || {
            let (end, c1, c2, start) = black_box(space(&c));
            bezier::linearize_bezier_from_params(end, c1, c2, start, black_box(resolution)).len()
        }),
        proved: Box::new(move || {
            let (c, mut count) = (black_box(c), 0);
            // SAFETY: the length is that of the output
            unsafe {
                twelve!(pz_linearize_bezier_from_params, c, resolution, out.as_mut_ptr(), out.len(), &mut count)
            };
            count
        }),
    }
}

fn adaptive(tolerance_sq: f64) -> Row<'static> {
    let mut out = vec![0.0; 2_050];
    Row {
        name: format!("linearize_bezier_adaptive, squared tolerance {tolerance_sq}"),
        given: Box::new(move || {
            let (p0, c1, c2, p1) = black_box(plane(&PLANE));
            bezier::linearize_bezier_adaptive(p0, c1, c2, p1, black_box(tolerance_sq), 10).len()
        }),
        proved: Box::new(move || {
            let (c, mut count) = (black_box(PLANE), 0);
            // SAFETY: the length is that of the output
            unsafe {
                eight!(pz_linearize_bezier_adaptive, c, tolerance_sq, 10, out.as_mut_ptr(), out.len(), &mut count)
            };
            count
        }),
    }
}

fn segment(tolerance: f64) -> Row<'static> {
    let mut out = vec![0.0; 3_075];
    Row {
        name: format!("linearize_bezier_segment, tolerance {tolerance}"),
        given: Box::new(move || {
            let (p0, c1, c2, p1) = black_box(space(&BEND));
            bezier::linearize_bezier_segment(p0, c1, c2, p1, Some(black_box(tolerance))).len()
        }),
        proved: Box::new(move || {
            let (c, mut count) = (black_box(BEND), 0);
            // SAFETY: the length is that of the output
            unsafe {
                twelve!(pz_linearize_bezier_segment, c, true, tolerance, out.as_mut_ptr(), out.len(), &mut count)
            };
            count
        }),
    }
}

/// Counted is whether there is a curve.
fn fitted(list: Vec<f64>) -> Row<'static> {
    let points = pairs(&list);
    let mut curve = [0.0; 8];
    Row {
        name: format!("fit_cubic_bezier, {} points", points.len()),
        given: Box::new(move || bezier::fit_cubic_bezier(black_box(&points)).is_some() as usize),
        proved: Box::new(move || {
            let mut found = false;
            // SAFETY: the length is that of the list, and a curve has eight numbers
            unsafe { pz_fit_cubic_bezier(list.as_ptr(), list.len(), &mut found, curve.as_mut_ptr()) };
            found as usize
        }),
    }
}

fn rows() -> Vec<Row<'static>> {
    let mut draw = Draw::new(Random::new(1));
    let mut rows: Vec<Row> = [10, 100, 400, 800, 2_048].map(uniform).into();
    rows.extend([10, 100, 400, 800].map(from_params));
    // at most depth 10, so at most 1,024 parts
    rows.extend([1.0, 0.01, 0.0001, 0.000_001].map(adaptive));
    rows.extend([1.0, 0.1, 0.01, 0.001].map(segment));
    rows.extend([10, 100, 400, 800, 2_048].map(|count| fitted(track(&mut draw, count, 4.0, 1.0))));
    rows
}

/// Prints the table, and answers whether both sides made as many items of each curve.
pub fn run() -> bool {
    table("made", rows())
}
