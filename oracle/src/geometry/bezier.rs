//! The functions of bezier.rs, and the midpoint.
use super::calls::*;
use super::draw::Draw;
use super::frame::{Call, Compared, Function};
use super::lent::{Lent, patterns};
use super::table::{self, refusal};
use crate::{eight, twelve};
use raygeo::geo::shape::{bezier, point};
use raygeo::geo::types::{CubicBezier, Point, Point3D};

pub const FUNCTIONS: [Function; 9] = [
    get_midpoint_3d,
    get_bezier_point_at,
    split_bezier,
    is_bezier_flat,
    linearize_bezier,
    linearize_bezier_from_params,
    linearize_bezier_adaptive,
    linearize_bezier_segment,
    fit_cubic_bezier,
];

// ---- points and their numbers

/// The point at place i of numbers.
pub fn pair(numbers: &[f64], i: usize) -> Point {
    Point::new(numbers[2 * i], numbers[2 * i + 1])
}

pub fn triple(numbers: &[f64], i: usize) -> Point3D {
    Point3D::new(numbers[3 * i], numbers[3 * i + 1], numbers[3 * i + 2])
}

/// All points of a list.
pub fn pairs(numbers: &[f64]) -> Vec<Point> {
    (0..numbers.len() / 2).map(|i| pair(numbers, i)).collect()
}

/// The four points of a curve.
pub fn plane(c: &[f64]) -> (Point, Point, Point, Point) {
    (pair(c, 0), pair(c, 1), pair(c, 2), pair(c, 3))
}

pub fn space(c: &[f64]) -> (Point3D, Point3D, Point3D, Point3D) {
    (triple(c, 0), triple(c, 1), triple(c, 2), triple(c, 3))
}

pub fn words_of_pairs(points: &[Point]) -> Vec<u64> {
    points.iter().flat_map(|p| patterns(&[p.x, p.y])).collect()
}

pub fn words_of_triples(points: &[Point3D]) -> Vec<u64> {
    points.iter().flat_map(|p| patterns(&[p.x, p.y, p.z])).collect()
}

fn words_of_curve(curve: &CubicBezier) -> Vec<u64> {
    words_of_pairs(&[curve.0, curve.1, curve.2, curve.3])
}

fn words_of_steps(steps: &[(Point3D, Point3D)]) -> Vec<u64> {
    steps.iter().flat_map(|step| words_of_triples(&[step.0, step.1])).collect()
}

/// What stands in an output of `width` words an item, and in its count, once these words are written.
pub fn items(before: &[Lent], words: &[u64], width: usize) -> Vec<Lent> {
    vec![before[0].written(words), before[1].written(&[(words.len() / width) as u64])]
}

/// An output of so many words, and a count.
fn output(room: usize) -> Vec<Lent> {
    vec![Lent::room(room), Lent::count()]
}

// ---- get_midpoint_3d

fn get_midpoint_3d(draw: &mut Draw) -> Compared {
    midpoint_of(&draw.points(2, 3))
}

pub fn midpoint_of(p: &[f64]) -> Compared {
    let call = Call {
        function: "get_midpoint_3d",
        arguments: vec![("points", patterns(p))],
        refusal: refusal(&[table::outside(table::coordinates(p))]),
        lent: vec![Lent::room(3)],
    };
    call.compare(
        |lent| unsafe { pz_get_midpoint_3d(p[0], p[1], p[2], p[3], p[4], p[5], lent[0].as_mut_ptr()) },
        |before| {
            let middle = point::get_midpoint_3d(triple(p, 0), triple(p, 1));
            vec![before[0].written(&words_of_triples(&[middle]))]
        },
    )
}

// ---- get_bezier_point_at, split_bezier

/// A call on a curve in the plane and a parameter, which gives so many numbers.
fn at_parameter(function: &'static str, c: &[f64], t: f64, numbers: usize) -> Call {
    Call {
        function,
        arguments: vec![("curve", patterns(c)), ("t", patterns(&[t]))],
        refusal: refusal(&[table::outside(table::coordinates(c) && table::parameter(t))]),
        lent: vec![Lent::room(numbers)],
    }
}

fn get_bezier_point_at(draw: &mut Draw) -> Compared {
    let c = draw.curve(2);
    point_of(&c, draw.parameter())
}

pub fn point_of(c: &[f64], t: f64) -> Compared {
    at_parameter("get_bezier_point_at", c, t, 2).compare(
        |lent| unsafe { eight!(pz_get_bezier_point_at, c, t, lent[0].as_mut_ptr()) },
        |before| {
            let (p0, c1, c2, p1) = plane(c);
            vec![before[0].written(&words_of_pairs(&[bezier::get_bezier_point_at(p0, c1, c2, p1, t)]))]
        },
    )
}

fn split_bezier(draw: &mut Draw) -> Compared {
    let c = draw.curve(2);
    split_of(&c, draw.parameter())
}

pub fn split_of(c: &[f64], t: f64) -> Compared {
    at_parameter("split_bezier", c, t, 16).compare(
        |lent| unsafe { eight!(pz_split_bezier, c, t, lent[0].as_mut_ptr()) },
        |before| {
            let (p0, c1, c2, p1) = plane(c);
            let (left, right) = bezier::split_bezier(p0, c1, c2, p1, t);
            vec![before[0].written(&[words_of_curve(&left), words_of_curve(&right)].concat())]
        },
    )
}

// ---- is_bezier_flat, linearize_bezier_adaptive

/// A squared tolerance, now and then just as far as a control is off the chord.
fn limit_for(c: &[f64], draw: &mut Draw) -> f64 {
    if !draw.one_in(4) {
        return draw.tolerance_sq();
    }
    draw.label("tolerance at a control's distance");
    let (p0, c1, c2, p1) = plane(c);
    let control = if draw.flag() { c1 } else { c2 };
    let (vx, vy) = (p1.x - p0.x, p1.y - p0.y);
    let cross = vx * (control.y - p0.y) - vy * (control.x - p0.x);
    let square = cross * cross / (vx * vx + vy * vy);
    // it is a NaN where the ends meet, and for a curve that is refused
    if square.is_nan() { 1.0 } else { square.clamp(1e-6, 1_000_000.0) }
}

fn is_bezier_flat(draw: &mut Draw) -> Compared {
    let c = draw.curve(2);
    let limit = limit_for(&c, draw);
    flat_of(&c, limit, draw.flag())
}

pub fn flat_of(c: &[f64], limit: f64, start: bool) -> Compared {
    let call = Call {
        function: "is_bezier_flat",
        arguments: vec![("curve", patterns(c)), ("tolerance_sq", patterns(&[limit]))],
        refusal: refusal(&[table::outside(table::coordinates(c)), table::bad_tolerance(table::tolerance_sq(limit))]),
        lent: vec![Lent::flag(start)],
    };
    call.compare(
        |lent| unsafe { eight!(pz_is_bezier_flat, c, limit, lent[0].as_mut_ptr()) },
        |before| {
            let (p0, c1, c2, p1) = plane(c);
            vec![before[0].flagged(bezier::is_bezier_flat(p0, c1, c2, p1, limit))]
        },
    )
}

/// The most of a subdivision, as a number of points. A depth that is refused asks for as many as the next one.
fn most_of_depth(depth: usize) -> usize {
    1 + (1 << depth.min(11))
}

fn linearize_bezier_adaptive(draw: &mut Draw) -> Compared {
    let c = draw.curve(2);
    let limit = limit_for(&c, draw);
    let depth = draw.depth();
    adaptive_of(&c, limit, depth, draw.room(2, most_of_depth(depth)))
}

pub fn adaptive_of(c: &[f64], limit: f64, depth: usize, room: usize) -> Compared {
    let call = Call {
        function: "linearize_bezier_adaptive",
        arguments: vec![
            ("curve", patterns(c)),
            ("tolerance_sq", patterns(&[limit])),
            ("depth", vec![depth as u64]),
            ("room", vec![room as u64]),
        ],
        refusal: refusal(&[
            table::not_whole(room, 2),
            table::too_deep(depth),
            table::outside(table::coordinates(c)),
            table::bad_tolerance(table::tolerance_sq(limit)),
            table::no_room(room, 2 * most_of_depth(depth)),
        ]),
        lent: output(room),
    };
    call.compare(
        |lent| unsafe {
            let (out, count) = (lent[0].as_mut_ptr(), lent[1].as_mut_ptr());
            eight!(pz_linearize_bezier_adaptive, c, limit, depth, out, room, count)
        },
        |before| {
            let (p0, c1, c2, p1) = plane(c);
            items(before, &words_of_pairs(&bezier::linearize_bezier_adaptive(p0, c1, c2, p1, limit, depth)), 2)
        },
    )
}

// ---- linearize_bezier

fn linearize_bezier(draw: &mut Draw) -> Compared {
    let c = draw.curve(3);
    let steps = draw.steps();
    steps_of(&c, steps, draw.room(6, steps.min(2_049)))
}

pub fn steps_of(c: &[f64], steps: usize, room: usize) -> Compared {
    let call = Call {
        function: "linearize_bezier",
        arguments: vec![("curve", patterns(c)), ("steps", vec![steps as u64]), ("room", vec![room as u64])],
        refusal: refusal(&[
            table::not_whole(room, 6),
            table::bad_steps(steps),
            table::outside(table::coordinates(c)),
            table::no_room(room, steps.saturating_mul(6)),
        ]),
        lent: output(room),
    };
    call.compare(
        |lent| unsafe {
            let (out, count) = (lent[0].as_mut_ptr(), lent[1].as_mut_ptr());
            twelve!(pz_linearize_bezier, c, steps, out, room, count)
        },
        |before| {
            let (p0, c1, c2, p1) = space(c);
            items(before, &words_of_steps(&bezier::linearize_bezier(p0, c1, c2, p1, steps)), 6)
        },
    )
}

// ---- linearize_bezier_from_params

/// The length of the control polygon of a command's curve: end, controls, start. The controls' z is replaced by thirds.
pub fn polygon_length(c: &[f64]) -> f64 {
    let (end, start) = (&c[0..3], &c[9..12]);
    let third = |a: f64, b: f64| start[2] * (a / 3.0) + end[2] * (b / 3.0);
    let corners = [
        [start[0], start[1], start[2]],
        [c[3], c[4], third(2.0, 1.0)],
        [c[6], c[7], third(1.0, 2.0)],
        [end[0], end[1], end[2]],
    ];
    let side = |i: usize| {
        let d = [0, 1, 2].map(|axis| corners[i][axis] - corners[i + 1][axis]);
        (d[0] * d[0] + d[1] * d[1] + d[2] * d[2]).sqrt()
    };
    side(0) + side(1) + side(2)
}

/// The steps of a command's curve, by document 01: its length over the resolution, rounded up, at least 2.
pub fn steps_needed(c: &[f64], resolution: f64) -> f64 {
    (polygon_length(c) / resolution).ceil().max(2.0)
}

/// A resolution, often one that gives few steps or about 800.
fn resolution_for(c: &[f64], draw: &mut Draw) -> f64 {
    if draw.one_in(3) {
        return draw.tolerance();
    }
    let steps = if draw.one_in(4) {
        draw.label("about 800 steps");
        draw.of(&[799.0, 800.0, 800.0, 801.0])
    } else {
        draw.label("few steps");
        1.0 + draw.below(40) as f64
    };
    let resolution = (polygon_length(c) / steps).clamp(0.001, 1_000.0);
    // it is a NaN for a curve that is refused
    draw.near(if resolution.is_nan() { 1.0 } else { resolution })
}

fn linearize_bezier_from_params(draw: &mut Draw) -> Compared {
    let c = draw.curve(3);
    let resolution = resolution_for(&c, draw);
    let needed = steps_needed(&c, resolution);
    // where there are too many steps, the room is not looked at
    let most = if needed <= 800.0 { needed as usize } else { draw.below(9) };
    params_of(&c, resolution, draw.room(6, most))
}

pub fn params_of(c: &[f64], resolution: f64, room: usize) -> Compared {
    let needed = steps_needed(c, resolution);
    let call = Call {
        function: "linearize_bezier_from_params",
        arguments: vec![("curve", patterns(c)), ("resolution", patterns(&[resolution])), ("room", vec![room as u64])],
        refusal: refusal(&[
            table::not_whole(room, 6),
            table::outside(table::coordinates(c)),
            table::bad_tolerance(table::tolerance(resolution)),
            (8, needed > 800.0),
            table::no_room(room, (needed as usize).saturating_mul(6)),
        ]),
        lent: output(room),
    };
    call.compare(
        |lent| unsafe {
            let (out, count) = (lent[0].as_mut_ptr(), lent[1].as_mut_ptr());
            twelve!(pz_linearize_bezier_from_params, c, resolution, out, room, count)
        },
        |before| {
            let (end, c1, c2, start) = space(c);
            items(before, &words_of_steps(&bezier::linearize_bezier_from_params(end, c1, c2, start, resolution)), 6)
        },
    )
}

// ---- linearize_bezier_segment

/// The most of a subdivision of depth 10, as a number of points.
const MOST: usize = 1_025;

/// A tolerance, now and then just as far as a control is off the chord, or the source's own.
fn tolerance_for(c: &[f64], draw: &mut Draw) -> Option<f64> {
    if draw.one_in(6) {
        draw.label("the source's tolerance");
        return None;
    }
    if !draw.one_in(4) {
        return Some(draw.tolerance());
    }
    draw.label("tolerance at a control's distance");
    let (p0, c1, c2, p1) = space(c);
    let distance = bezier::get_bezier_flatness_sq(p0, c1, c2, p1).sqrt();
    // it may be a NaN for a curve that is refused
    Some(if distance.is_nan() { 1.0 } else { distance.clamp(0.001, 1_000.0) })
}

fn linearize_bezier_segment(draw: &mut Draw) -> Compared {
    let c = draw.curve(3);
    let tolerance = tolerance_for(&c, draw);
    segment_of(&c, tolerance, draw.room(3, MOST))
}

pub fn segment_of(c: &[f64], tolerance: Option<f64>, room: usize) -> Compared {
    let call = Call {
        function: "linearize_bezier_segment",
        arguments: vec![
            ("curve", patterns(c)),
            ("tolerance", patterns(tolerance.as_slice())),
            ("room", vec![room as u64]),
        ],
        refusal: refusal(&[
            table::not_whole(room, 3),
            table::outside(table::coordinates(c)),
            table::bad_tolerance(tolerance.is_none_or(table::tolerance)),
            table::no_room(room, 3 * MOST),
        ]),
        lent: output(room),
    };
    call.compare(
        |lent| unsafe {
            let (out, count) = (lent[0].as_mut_ptr(), lent[1].as_mut_ptr());
            let (given, t) = (tolerance.is_some(), tolerance.unwrap_or(0.0));
            twelve!(pz_linearize_bezier_segment, c, given, t, out, room, count)
        },
        |before| {
            let (p0, c1, c2, p1) = space(c);
            items(before, &words_of_triples(&bezier::linearize_bezier_segment(p0, c1, c2, p1, tolerance)), 3)
        },
    )
}

// ---- fit_cubic_bezier

fn fit_cubic_bezier(draw: &mut Draw) -> Compared {
    let list = draw.list();
    fit_of(&list, draw.flag())
}

/// The list is lent too, and must stay as it is.
pub fn fit_of(list: &[f64], start: bool) -> Compared {
    let call = Call {
        function: "fit_cubic_bezier",
        arguments: vec![("points", patterns(list))],
        refusal: refusal(&[
            table::not_whole(list.len(), 2),
            table::too_many_points(list.len() / 2),
            table::outside(table::coordinates(list)),
        ]),
        lent: vec![Lent::numbers(list), Lent::flag(start), Lent::room(8)],
    };
    call.compare(
        |lent| unsafe {
            let (points, found, answer) = (lent[0].as_mut_ptr::<f64>(), lent[1].as_mut_ptr(), lent[2].as_mut_ptr());
            pz_fit_cubic_bezier(points, list.len(), found, answer)
        },
        |before| {
            let curve = bezier::fit_cubic_bezier(&pairs(list));
            let words = curve.map_or(vec![], |curve| words_of_curve(&curve));
            vec![before[0].clone(), before[1].flagged(curve.is_some()), before[2].written(&words)]
        },
    )
}
