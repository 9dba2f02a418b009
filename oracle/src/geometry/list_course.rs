//! The recorded calls of `fit_arcs` and `optimize_path_from_array`. A fit is listed only where document 01's margins that are
//! asked hold.
use super::course::{arcs_of, draw_arcs, draw_optimized, most, optimized_of};
use super::draw::Draw;
use super::fit::Judged;
use super::list::{Record, filled, record};
use super::list_simplify::{LONG, full, lines};
use super::margins::Margins;
use super::shapes::{raised, track, zigzag};
use super::simplify::{Commands, Rooms};
use crate::random::Random;

/// A Move to the first place and Lines to the others, all in the plane.
fn course(plane: &[f64]) -> Commands {
    let solid: Vec<f64> = plane.chunks(2).flat_map(|p| [p[0], p[1], 0.0]).collect();
    lines(&solid, plane.len())
}

/// With a command put at a place.
fn with(mut c: Commands, at: usize, kind: u8, nine: [f64; 9]) -> Commands {
    c.kinds.insert(at, kind);
    c.numbers.splice(9 * at..9 * at, nine);
    c
}

/// Both functions on a course, with room for the most and with room for one command less.
fn calls_of(c: &Commands, tolerance: f64) -> Vec<Judged> {
    let needed = most(c, tolerance).min(900.0) as usize;
    let rooms = |count: usize| Rooms { kinds: count, numbers: 9 * count };
    vec![
        arcs_of(c, tolerance, rooms(needed)),
        arcs_of(c, tolerance, rooms(needed.saturating_sub(1))),
        optimized_of(c, tolerance, false, full(c)),
        optimized_of(c, tolerance, true, full(c)),
        optimized_of(c, tolerance, true, rooms(c.kinds.len().saturating_sub(1))),
    ]
}

/// Courses at which a slip shows: document 01's worked cases, an Arc and a Bezier inside, a Move inside, a Bezier with all
/// points equal, a point at the tolerance, no Move, nothing.
fn corners() -> Vec<Commands> {
    let bend = course(&[3.0, 4.0, 4.0, 3.0, 5.0, 0.0]);
    let angle = course(&[0.0, 0.0, 10.0, 0.0, 10.0, 10.0]);
    let wave = course(&[0.0, 0.0, 1.0, 0.5, 2.0, 0.0, 3.0, 0.5, 4.0, 0.0]);
    let arc = [9.0, 1.0, 2.0, -3.0, -4.0, 0.0, 0.0, 0.0, 1.0];
    let curve = [9.0, 1.0, 2.0, 4.0, 4.0, 0.0, 6.0, 5.0, 1.0];
    let point = [4.0, 3.0, 0.0, 4.0, 3.0, 0.0, 4.0, 3.0, 0.0];
    let stop = [7.0, 7.0, 7.0, 0.0, 0.0, 0.0, 0.0, 0.0, 0.0];
    vec![
        with(bend.clone(), 2, 2, arc),
        with(bend.clone(), 2, 3, curve),
        with(bend.clone(), 2, 3, point),
        with(bend.clone(), 2, 0, stop),
        with(with(wave.clone(), 3, 3, curve), 2, 2, arc),
        Commands { kinds: vec![1; 3], numbers: bend.numbers.clone() },
        Commands { kinds: Vec::new(), numbers: Vec::new() },
        bend,
        angle,
        wave,
    ]
}

/// Courses at which the distance to the segment decides, each at its tolerance (document 02, §4).
fn turning_back() -> Vec<(Commands, f64)> {
    let shuttle = [0.0, 0.0, 100.0, 0.0, 50.0, 0.0];
    let swapped: Vec<f64> = shuttle.chunks(2).flat_map(|p| [p[1], p[0]]).collect();
    vec![
        (course(&shuttle), 0.5),
        (course(&swapped), 0.5),
        (course(&shuttle.map(|x| -x)), 0.5),
        // behind the start, and both
        (course(&[0.0, 0.0, -30.0, 0.0, 50.0, 0.0]), 0.5),
        (course(&[0.0, 0.0, -30.0, 0.0, 90.0, 0.0, 50.0, 0.0]), 0.5),
        // at the tolerance from the end, and just above it
        (course(&[0.0, 0.0, 50.5, 0.0, 50.0, 0.0]), 0.5),
        (course(&[0.0, 0.0, 50.5f64.next_up(), 0.0, 50.0, 0.0]), 0.5),
        // start + 1 × (end − start) is not the end: that keeps three points, the end itself two
        (course(&[0.2, 0.0, 1.0, 0.0, 0.9, 0.0]), 0.1),
        // the far turn is beside the line too, and the ends are one point
        (course(&[0.0, 0.0, 60.0, 80.0, 30.0, 40.5, 24.0, 32.0]), 0.5),
        (course(&[0.0, 0.0, 100.0, 0.0, 0.0, 0.0]), 0.5),
    ]
}

/// The most commands, one more, the deepest recursion, and a bend of about 800 steps.
fn edges(draw: &mut Draw) -> Vec<Judged> {
    let long = track(draw, 801, 4.0, 1.0);
    let (all, more) = (lines(&raised(&long[..1_600], draw), 90), lines(&raised(&long, draw), 90));
    let bend = with(course(&[0.0, 0.0, 1.0, 0.0]), 1, 3, [100.0, 0.0, 0.0, 30.0, 0.0, 0.0, 60.0, 0.0, 0.0]);
    let mut calls = vec![
        arcs_of(&all, 2.0, full(&all)),
        optimized_of(&all, 2.0, true, full(&all)),
        arcs_of(&more, 2.0, full(&more)),
        arcs_of(&course(&zigzag(200, 1.0)), 0.5, full(&all)),
    ];
    for tolerance in [400.0 / 798.0, 0.5, 400.0 / 799.0] {
        calls.push(arcs_of(&bend, tolerance, full(&all)));
    }
    // 800 steps, and 801
    let alone = Commands { kinds: vec![3], numbers: bend.numbers[9..18].to_vec() };
    for tolerance in [0.5, 400.0 / 800.5] {
        calls.push(arcs_of(&alone, tolerance, full(&all)));
    }
    // a command's numbers too many
    let surplus = Commands { kinds: all.kinds[..3].to_vec(), numbers: all.numbers[..36].to_vec() };
    calls.extend([arcs_of(&surplus, 2.0, full(&all)), optimized_of(&surplus, 2.0, true, full(&all))]);
    calls
}

/// The corners, the courses that turn back, the edges, and then both functions in turn. A long one is drawn again.
pub fn records(count: usize, seed: u64) -> Vec<Record> {
    let mut draw = Draw::new(Random::new(seed));
    let mut fixed = edges(&mut draw);
    for c in corners() {
        for tolerance in [0.5, 0.45, 0.3, 0.25, 0.0] {
            fixed.extend(calls_of(&c, tolerance));
        }
    }
    for (c, tolerance) in turning_back() {
        fixed.extend(calls_of(&c, tolerance));
    }
    let held = |one: &Judged| one.stands.is_none_or(|stands| stands.margins != Margins::Outside);
    filled(fixed.iter().filter(|one| held(one)).map(|one| record(&one.call)).collect(), count, |index| {
        let call = if index % 2 == 0 { draw_arcs(&mut draw) } else { draw_optimized(&mut draw) };
        let record = record(&call);
        (record.items <= LONG && !draw.labels().contains(&Margins::Outside.label())).then_some(record)
    })
}
