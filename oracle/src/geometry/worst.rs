//! Which step of an arc is worst (document 02, §5): worked out from the Rust's own number of each step.
//!
//! The Rust's sagitta is not document 01's, and lies within its bound of it. So the Rust's numbers tell the step where the
//! greatest of them is clear of all others; elsewhere those with document 01's sagitta put in do.
use raygeo::geo::algo::fitting;
use raygeo::geo::types::{Point, Point3D};
use std::collections::BTreeSet;

/// What document 01 lets a deviation lie off the Rust's.
pub fn bound(radius: f64) -> f64 {
    1e-9 + radius * 1e-14
}

fn plane(p: Point3D) -> Point {
    Point::new(p.x, p.y)
}

/// The deviation of a step as the Rust works it out, with document 01's sagitta put in.
fn step_off(p: Point3D, q: Point3D, centre: Point, radius: f64) -> f64 {
    let (d1, d2) = (plane(p).distance(centre), plane(q).distance(centre));
    let length = (plane(q) - plane(p)).length();
    if length < 1e-9 {
        return (d1 - radius).abs();
    }
    let ends = (d1 - radius).abs().max((d2 - radius).abs());
    if length > 2.0 * radius {
        return ends;
    }
    let (v1, v2) = (plane(p) - centre, plane(q) - centre);
    let (mag1, mag2) = (v1.length(), v2.length());
    let sagitta = if mag1 < 1e-9 || mag2 < 1e-9 {
        0.0
    } else {
        let c = (v1.dot(v2) / (mag1 * mag2)).clamp(-1.0, 1.0);
        radius * (1.0 - ((1.0 + c) / 2.0).sqrt())
    };
    sagitta.max(ends)
}

/// The first of the greatest above 0, if one is.
fn first_greatest(offs: &[f64]) -> Option<usize> {
    let above = |(greatest, index): (f64, Option<usize>), (i, off): (usize, &f64)| {
        if *off > greatest { (*off, Some(i)) } else { (greatest, index) }
    };
    offs.iter().enumerate().fold((0.0, None), above).1
}

/// A worst step, counted from the first point, if one has a deviation; and whether the Rust's own numbers tell it.
pub struct Worst {
    pub index: Option<usize>,
    pub by_rust: bool,
}

impl Worst {
    /// Counted in a list in which the first point has this index; 0 where there is none.
    pub fn counted_from(&self, start: usize) -> usize {
        self.index.map_or(0, |index| start + index)
    }
}

/// The worst step of points round a centre.
pub fn worst_step(points: &[Point3D], centre: Point, radius: f64) -> Worst {
    let rust: Vec<f64> =
        points.windows(2).map(|step| fitting::get_polyline_arc_deviation(step, centre, radius)).collect();
    let first = first_greatest(&rust);
    let is_clear = |greatest: usize| {
        let clear = |other: f64| rust[greatest] - other > 2.0 * bound(radius);
        clear(0.0) && (0..rust.len()).all(|i| i == greatest || clear(rust[i]))
    };
    if rust.is_empty() || first.is_some_and(is_clear) {
        return Worst { index: first, by_rust: true };
    }
    let put_in: Vec<f64> = points.windows(2).map(|step| step_off(step[0], step[1], centre, radius)).collect();
    Worst { index: first_greatest(&put_in), by_rust: false }
}

/// Whether n may stand beside the Arc with this offset over the points from i to j: that step reaches the greatest deviation,
/// or it is 0 and so is that. The centre is known from the command only, so within what it is off by.
fn may_be_worst(points: &[Point3D], i: usize, j: usize, offset: &[f64], n: usize) -> bool {
    let a = plane(points[i]);
    let centre = Point::new(a.x + offset[0], a.y + offset[1]);
    let radius = a.distance(centre);
    let offs: Vec<f64> = points[i..=j].windows(2).map(|step| step_off(step[0], step[1], centre, radius)).collect();
    let greatest = offs.iter().fold(0.0, |most: f64, off| most.max(*off));
    let near = 2.0 * bound(radius) + 1e-15 * (centre.x.abs() + centre.y.abs());
    (n == 0 && greatest <= near) || (i <= n && n < j && offs[n - i] >= greatest - near)
}

/// Whether a list has document 02's law beside these commands, whatever their pieces are: 0 for each Line, a worst step for each
/// Arc. `stands` are the points at which the commands so far may have ended.
pub fn is_law_kept(points: &[Point3D], [start, end]: [usize; 2], commands: &[(u8, Vec<f64>)], list: &[u32]) -> bool {
    let mut stands = BTreeSet::from([start]);
    for ((kind, numbers), n) in commands.iter().zip(list) {
        let is_end = |j: usize| {
            [points[j].x, points[j].y, points[j].z].map(f64::to_bits) == [0, 1, 2].map(|k| numbers[k].to_bits())
        };
        let fits = |i: usize, j: usize| match kind {
            1 => *n == 0,
            _ => may_be_worst(points, i, j, &numbers[3..5], *n as usize),
        };
        let ends = stands.iter().flat_map(|i| (i + 1..=end).map(move |j| (*i, j)));
        stands = ends.filter(|(i, j)| is_end(*j) && fits(*i, *j)).map(|(_, j)| j).collect();
    }
    commands.len() == list.len() && (commands.is_empty() || stands.contains(&end))
}
