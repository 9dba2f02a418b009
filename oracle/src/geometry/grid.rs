//! Short inputs, all of them, on a small grid: lists of up to 4 points, and curves.
use super::arc::direction_of;
use super::bezier::{adaptive_of, fit_of, flat_of, point_of, split_of};
use super::frame::Tally;

/// The grid's coordinates.
const SIDE: [f64; 3] = [0.0, 1.0, 2.0];

/// Parameters, and squared tolerances: among them the squared distances that a control on the grid can have.
const PARAMETERS: [f64; 4] = [0.0, 0.25, 0.5, 1.0];
const LIMITS: [f64; 7] = [1e-6, 0.2, 0.5, 0.8, 1.0, 2.0, 4.0];

/// All lists of `count` points.
pub fn lists(count: u32) -> impl Iterator<Item = Vec<f64>> {
    (0..9usize.pow(count)).map(move |number| (0..2 * count).map(|place| SIDE[number / 3usize.pow(place) % 3]).collect())
}

/// Every function on one list of points, the flags lent as true and as false.
fn add_list(tally: &mut Tally, list: &[f64]) {
    for flag in [false, true] {
        tally.add(&fit_of(list, flag), &[]);
        for centre in lists(1) {
            tally.add(&direction_of(list, [centre[0], centre[1]], flag), &[]);
        }
    }
}

fn add_curve(tally: &mut Tally, curve: &[f64]) {
    for t in PARAMETERS {
        tally.add(&point_of(curve, t), &[]);
        tally.add(&split_of(curve, t), &[]);
    }
    for limit in LIMITS {
        tally.add(&flat_of(curve, limit, false), &[]);
        for depth in 0..4 {
            tally.add(&adaptive_of(curve, limit, depth, 2 * (1 + (1 << depth))), &[]);
        }
    }
}

/// Compares on all of them, and answers whether nothing differed.
pub fn run() -> bool {
    let mut tally = Tally::default();
    for count in 0..=4 {
        lists(count).for_each(|list| add_list(&mut tally, &list));
    }
    lists(4).for_each(|curve| add_curve(&mut tally, &curve));
    tally.report()
}
