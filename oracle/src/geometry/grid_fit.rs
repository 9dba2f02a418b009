//! Short lists to fit, all of them, on a small grid: up to 5 points.
use super::circle::{arc_of, bisector_of, circle_of, collinear_of, line_of, through_of};
use super::fit::{primitives_of, recursive_of};
use super::frame::Tally;
use super::grid::lists;
use super::simplify::Rooms;

/// Among them distances that a point on the grid can have exactly.
const TOLERANCES: [f64; 5] = [0.001, 0.25, 0.5, 1.0, 2.0];

const RADII: [f64; 4] = [0.0, 0.5, 1.0, 2.0];

/// With a height for each point.
fn raised(list: &[f64]) -> Vec<f64> {
    list.chunks(2).enumerate().flat_map(|(i, p)| [p[0], p[1], i as f64]).collect()
}

fn add_fits(tally: &mut Tally, list: &[f64], count: usize) {
    let most = count.saturating_sub(1);
    let rooms = Rooms { kinds: most, numbers: 9 * most };
    for tolerance in TOLERANCES {
        let whole = primitives_of(list, tolerance, rooms, most);
        tally.add(&whole.call, &whole.labels());
        tally.add(&collinear_of(list, tolerance, false), &[]);
        // the ranges of shorter lists, one index outside
        for (start, end) in (0..=count).flat_map(|start| (0..=count).map(move |end| (start, end))) {
            if count < 5 {
                let part = recursive_of(list, tolerance, [start, end], rooms, most);
                tally.add(&part.call, &part.labels());
            }
        }
    }
}

fn add_measures(tally: &mut Tally, list: &[f64], count: usize) {
    tally.add(&circle_of(list, false), &[]);
    for (start, end) in (0..=count).flat_map(|start| (0..=count).map(move |end| (start, end))) {
        tally.add(&line_of(list, [start, end]), &[]);
    }
    for centre in lists(1) {
        for radius in RADII {
            tally.add(&arc_of(list, [centre[0], centre[1]], radius), &[]);
        }
        if count == 2 {
            tally.add(&bisector_of(list, [centre[0], centre[1]]), &[]);
        }
    }
    if count == 3 {
        tally.add(&through_of(list, false), &[]);
    }
}

/// Compares on all of them, and answers whether nothing differed.
pub fn run() -> bool {
    let mut tally = Tally::default();
    for count in 0..=5 {
        for list in lists(count) {
            let list = raised(&list);
            add_fits(&mut tally, &list, count as usize);
            if count < 5 {
                add_measures(&mut tally, &list, count as usize);
            }
        }
    }
    tally.report()
}
