//! The recorded calls of circle fits, deviations and fits of points. A fit stands in the list only where document 01's margins
//! hold. A deviation from an arc is the proved function's, and stands there only where it is within document 01's bound of
//! the Rust's.
use super::circle;
use super::draw::Draw;
use super::fit::{FUNCTIONS, Judged, deviation_round, primitives_of, recursive_of};
use super::frame::Compared;
use super::list::{Record, filled, record};
use super::margins::Margins;
use super::shapes::{raised, reversed, track, zigzag};
use super::simplify::{Rooms, triples};
use crate::random::Random;
use raygeo::geo::algo::fitting;

/// A drawn record has at most so many numbers and kinds.
const LONG: usize = 109;

/// The most of all points of a list.
fn full(list: &[f64]) -> Rooms {
    let most = (list.len() / 3).saturating_sub(1);
    Rooms { kinds: most, numbers: 9 * most }
}

fn whole(list: &[f64], tolerance: f64) -> Judged {
    let rooms = full(list);
    primitives_of(list, tolerance, rooms, rooms.kinds)
}

/// Points in the plane, lifted.
fn lifted(plane: &[f64]) -> Vec<f64> {
    plane.chunks(2).enumerate().flat_map(|(i, p)| [p[0], p[1], i as f64 / 2.0]).collect()
}

/// Document 01's worked cases.
fn worked() -> Vec<Judged> {
    let corner = lifted(&[0.0, 0.0, 10.0, 0.0, 10.0, 10.0]);
    let bend = lifted(&[3.0, 4.0, 4.0, 3.0, 5.0, 0.0]);
    let far = [1_000_000.0, 1_000_000f64.next_up()].map(|x| lifted(&[0.0, 0.0, x, 1.0]));
    vec![
        whole(&[], 0.5),
        whole(&lifted(&[1.0, 2.0]), 0.5),
        whole(&lifted(&[1.0, 2.0, 1.0, 2.0]), 0.5),
        whole(&corner, 0.5),
        whole(&bend, 0.45),
        whole(&bend, 0.3),
        whole(&bend, 0.25),
        whole(&corner, 0.001),
        whole(&corner, 0.0),
        whole(&far[0], 0.001),
        whole(&far[1], 0.001),
    ]
}

/// Points on a circle of radius 25, no two of them across from each other, and then the end.
fn ring(end: [f64; 2]) -> Vec<f64> {
    let mut list = vec![25.0, 0.0, 20.0, 15.0, 7.0, 24.0, -7.0, 24.0, -20.0, 15.0];
    list.extend([-24.0, -7.0, -15.0, -20.0, 0.0, -25.0, 15.0, -20.0, 24.0, -7.0]);
    list.extend(end);
    list
}

/// Lists at which a slip shows: a point at the tolerance, equal farthest points, closed ranges, short chords, just less
/// than a turn and just more, both ways round.
fn corners() -> Vec<Vec<f64>> {
    let rings = [[25.0, -0.01], [25.0, -0.03], [25.0, 0.0], [25.0, 0.01], [24.0, 7.0]].map(ring);
    let mut lists = vec![
        vec![0.0, 0.0, 4.0, 1.0, 8.0, 0.0],
        vec![0.0, 0.0, 1.0, 1.0, 2.0, 0.0],
        vec![0.0, 0.0, 1.0, 2.0, 2.0, 0.0, 3.0, 2.0, 4.0, 0.0],
        vec![0.0, 0.0, 1.0, 2.0, 2.0, -2.0, 3.0, 2.0, 4.0, 0.0],
        vec![0.0, 0.0, 5.0, 1.5, 10.0, 2.0, 15.0, 1.5, 20.0, 0.0],
        vec![0.0, 0.0, 5.0, 1.5, 10.0, 2.5, 15.0, 1.0, 20.0, 0.0],
        vec![0.0, 0.0, 2.0, 1.0, 2.0, 1.0, 1.0, 0.0, 0.0, 0.0],
        vec![0.0, 0.0, 5.0, 0.0, 1e-6, 0.0],
    ];
    lists.extend(rings.iter().map(|ring| reversed(ring)));
    lists.extend(rings);
    lists
}

/// Each of them at some tolerances, whole and in part.
fn at_tolerances() -> Vec<Judged> {
    let mut calls = Vec::new();
    for plane in corners() {
        let list = lifted(&plane);
        let last = list.len() / 3 - 1;
        for tolerance in [0.1, 0.5, 1.0, 1f64.next_up(), 3.0] {
            calls.push(whole(&list, tolerance));
            calls.push(recursive_of(&list, tolerance, [1, last], full(&list), last));
        }
    }
    calls
}

/// Three points a kilometre from the origin, where the first arc trial fails and the second passes: rounding moves the two centres
/// apart, and the tolerance lies between the deviations.
fn second_trials() -> Vec<Judged> {
    let far = |i: usize| {
        let (x, y) = (1_000.1 + i as f64 * 77.7, -900.3 - i as f64 * 55.5);
        let list = lifted(&[x, y, x + 4.0, y + 1.0, x + 8.0, y]);
        let points = triples(&list);
        let first = deviation_round(&points, fitting::fit_circle_to_3_points(points[0], points[1], points[2])?.0);
        let second = deviation_round(&points, fitting::fit_circle_to_points_3d(&points)?.0);
        (first - second > 1e-7).then(|| whole(&list, (first + second) / 2.0))
    };
    (0..100).filter_map(far).take(3).collect()
}

/// The calls of the other functions on the same lists.
fn measures() -> Vec<Compared> {
    let mut calls = Vec::new();
    for plane in corners() {
        let list = lifted(&plane);
        let last = list.len() / 3 - 1;
        calls.push(circle::circle_of(&list, false));
        calls.push(circle::collinear_of(&list, 1.0, false));
        calls.push(circle::line_of(&list, [0, last]));
        calls.push(circle::line_of(&list, [last, 0]));
        calls.push(circle::line_of(&list, [last + 1, 0]));
        calls.push(circle::line_of(&list, [0, last + 1]));
        calls.push(circle::arc_of(&list, [0.0, 0.0], 5.0));
        calls.push(circle::through_of(&list[..9], false));
        calls.push(circle::bisector_of(&list[..6], [1.5, -7.0]));
    }
    calls
}

/// The least and the greatest arguments, and those beside the source's own limits.
fn limits() -> Vec<Compared> {
    let list = lifted(&[0.0, 0.0, 4.0, 1.0, 8.0, 0.0]);
    let (most, more) = (1e12, 1e12f64.next_up());
    let mut calls = Vec::new();
    for radius in [0.0, -0.0, most, more, -f64::from_bits(1)] {
        calls.push(circle::arc_of(&list, [4.0, -7.5], radius));
    }
    for centre in [[most, -most], [more, 0.0], [0.0, -more]] {
        calls.push(circle::arc_of(&list, centre, 1.0));
        calls.push(circle::bisector_of(&list[..6], centre));
    }
    for chord in [1e-6f64.next_down(), 1e-6, 2e-6] {
        calls.push(circle::bisector_of(&[0.0, 0.0, 0.0, chord, 0.0, 1.0], [3.0, 4.0]));
    }
    for height in [0.4e-9, 0.5e-9, 1e-9, 2e-9] {
        calls.push(circle::through_of(&lifted(&[0.0, 0.0, 1.0, height, 2.0, 0.0]), true));
    }
    for off in [0.01, 0.01f64.next_up(), 0.015] {
        calls.push(circle::circle_of(&lifted(&[0.0, 0.0, 0.0, off, 1.0, 0.0, 2.0, 0.0]), true));
        calls.push(circle::circle_of(&lifted(&[0.0, 0.0, 0.0, off, 0.0, 0.0]), true));
    }
    for tolerance in [0.001f64.next_down(), 0.001, 1_000.0, 1_000f64.next_up()] {
        calls.push(circle::collinear_of(&list, tolerance, true));
        calls.push(whole(&list, tolerance).call);
    }
    calls
}

/// Most points and one more, a deep recursion, ranges at the edges, outputs one short.
fn edges(draw: &mut Draw) -> Vec<Judged> {
    let long = raised(&track(draw, 2_048, 4.0, 1.0), draw);
    let more = [&long[..], &[1.0, 2.0, 3.0]].concat();
    let deep = lifted(&zigzag(500, 1.0));
    let bend = lifted(&[3.0, 4.0, 4.0, 3.0, 5.0, 0.0, 4.0, -3.0]);
    let short = [Rooms { kinds: 2, numbers: 27 }, Rooms { kinds: 3, numbers: 18 }, Rooms { kinds: 3, numbers: 26 }];
    let mut calls = vec![whole(&long, 5.0), whole(&more, 2.0), whole(&deep, 0.5)];
    for range in [[0, 3], [0, 4], [3, 3], [3, 1], [4, 4], [7, 5], [5, 7], [2, usize::MAX]] {
        calls.push(recursive_of(&bend, 0.3, range, full(&bend), 3));
    }
    calls.extend(short.map(|rooms| primitives_of(&bend, 0.3, rooms, 3)));
    calls.extend([0, 2, 4].map(|places| primitives_of(&bend, 0.3, full(&bend), places)));
    calls.push(recursive_of(&bend, 0.3, [1, 3], full(&bend), 1));
    // a Line, and then an Arc on which every step lies, as far as floats tell: its worst step is 0 although it starts later
    calls.push(whole(&lifted(&[0.0, -10.0, 0.0, 0.0, 200_000.0, 0.0012, 400_000.0, 0.0]), 0.001));
    // steps that are as far off: the first is told
    calls.push(whole(&lifted(&[0.0, 0.0, 0.0, -50.0, 3.0, -54.0, 10.0, -55.0, 17.0, -54.0, 20.0, -50.0]), 2.0));
    calls
}

/// The calls whose answer is owed.
fn owed(calls: Vec<Judged>) -> impl Iterator<Item = Compared> {
    let inside = |call: &Judged| call.stands.is_none_or(|stands| stands.margins != Margins::Outside);
    calls.into_iter().filter(inside).map(|call| call.call)
}

/// The worked cases, the corners, the edges, and then the functions in turn, fits in every other place. One that is long, or
/// whose answer is not owed, is drawn again.
pub fn records(count: usize, seed: u64) -> Vec<Record> {
    let mut draw = Draw::new(Random::new(seed));
    let fits = [worked(), at_tolerances(), second_trials(), edges(&mut draw)];
    let fixed = fits.into_iter().flat_map(owed).chain(measures()).chain(limits());
    filled(fixed.map(|call| record(&call)).collect(), count, |index| {
        let function = if index % 2 == 0 { FUNCTIONS[6 + index / 2 % 2] } else { FUNCTIONS[index / 2 % 6] };
        let call = function(&mut draw);
        assert!(call.proved == call.given, "a difference in {}", call.function);
        let record = record(&call);
        (record.items <= LONG && !draw.labels().contains(&Margins::Outside.label())).then_some(record)
    })
}
