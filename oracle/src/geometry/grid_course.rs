//! Short laps, all of them, on a small grid: up to 5 points, as a course, and as a file of one lap. On the grid many points lie
//! on the line through two others and outside the segment between them, or at a tolerance from its end.
use super::course::arcs_of;
use super::frame::Tally;
use super::grid::lists;
use super::laps::{fit_of, recording};
use super::list_simplify::{full, lines};

/// Among them distances that a point on the grid can have exactly.
const TOLERANCES: [f64; 6] = [0.001, 0.25, 0.5, 1.0, std::f64::consts::SQRT_2, 2.0];

/// Compares on all of them, and answers whether nothing differed.
pub fn run() -> bool {
    let mut tally = Tally::default();
    for count in 1..=5 {
        for plane in lists(count) {
            let ends: Vec<f64> = plane.chunks(2).flat_map(|p| [p[0], p[1], 0.0]).collect();
            let lap = lines(&ends, ends.len());
            let file = recording(std::slice::from_ref(&lap));
            for tolerance in TOLERANCES {
                for judged in [arcs_of(&lap, tolerance, full(&lap)), fit_of(&file, tolerance, file.len())] {
                    tally.add(&judged.call, &judged.labels());
                }
            }
        }
    }
    tally.report()
}
