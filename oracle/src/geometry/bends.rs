//! Lists of points to fit: recordings as a watch makes them, points exactly on circles, and turns at which an arc trial is
//! most easily wrong.
use super::draw::Draw;
use super::shapes::{self, noise, turn};

/// How many points a list has, around each boundary; more often than elsewhere as many as a recording has.
pub fn count(draw: &mut Draw) -> usize {
    match draw.below(60) {
        0 => draw.edge(&[(2_047, "2,047 points"), (2_048, "2,048 points"), (2_049, "2,049 points")]),
        1 => draw.below(2_049),
        2..6 => draw.edge(&[(0, "no point"), (1, "one point"), (2, "two points")]),
        6..9 => draw.below(400),
        9..22 => draw.below(60),
        22..30 => draw.labelled("three points", 3),
        _ => 4 + draw.below(9),
    }
}

// ---- recordings

/// A path that goes on for some points with one turn a point, then with another.
fn winding(draw: &mut Draw, count: usize) -> Vec<f64> {
    let (speed, size) = (draw.of(&[1.2, 3.7, 6.5]), draw.of(&[0.0, 0.05, 0.5, 3.0]));
    let (mut place, mut heading, mut left, mut spin) = ([0.0; 2], [speed, 0.0], 0, 0.0);
    let mut list = Vec::with_capacity(2 * count);
    for _ in 0..count {
        if left == 0 {
            left = 3 + draw.below(30);
            spin = draw.of(&[0.0, 0.0, 0.01, 0.03, 0.1, 0.25, 0.6]);
            spin = draw.signed(spin);
        }
        left -= 1;
        list.extend(place.map(|x: f64| x + noise(draw, size)));
        let (c, s) = turn(spin);
        heading = [c * heading[0] - s * heading[1], s * heading[0] + c * heading[1]];
        place = [place[0] + heading[0], place[1] + heading[1]];
    }
    list
}

/// There and back between two marks, 20 m apart.
fn shuttle(draw: &mut Draw, count: usize) -> Vec<f64> {
    let (speed, size) = (draw.of(&[2.5, 3.0, 4.0]), draw.of(&[0.0, 0.3, 2.0]));
    (0..count)
        .flat_map(|i| {
            let along = (i as f64 * speed) % 40.0;
            let x = if along < 20.0 { along } else { 40.0 - along };
            [x + noise(draw, size), noise(draw, size)]
        })
        .collect()
}

/// Standing still: the receiver wanders.
fn still(draw: &mut Draw, count: usize) -> Vec<f64> {
    let size = draw.of(&[0.02, 0.3, 1.5]);
    let mut place = [0.0; 2];
    (0..count)
        .flat_map(|_| {
            place = place.map(|x| 0.98 * x + noise(draw, size));
            place
        })
        .collect()
}

/// Six times 200 m on the track, with a pause after each.
fn repetitions(draw: &mut Draw, count: usize) -> Vec<f64> {
    let (pace, pause, size) = (draw.of(&[5.0, 6.5]), 5 + draw.below(30), draw.of(&[0.3, 1.0]));
    let run = (200.0 / pace) as usize;
    let mut list = Vec::with_capacity(2 * count);
    for i in 0..count {
        let (round, step) = (i / (run + pause), i % (run + pause));
        let metres = (round * run + step.min(run)) as f64 * pace;
        list.extend(shapes::on_track(metres).map(|x| x + noise(draw, size)));
    }
    list
}

/// One of the recordings above.
pub fn recording(draw: &mut Draw, count: usize) -> Vec<f64> {
    match draw.below(6) {
        0 => {
            draw.label("points: shuttles");
            shuttle(draw, count)
        }
        1 => {
            draw.label("points: standing");
            still(draw, count)
        }
        2 => {
            draw.label("points: six repetitions");
            repetitions(draw, count)
        }
        3 => {
            draw.label("points: a lap of a track");
            let (speed, size) = (draw.of(&[2.8, 4.0, 6.5]), draw.of(&[0.1, 0.5, 1.0, 3.0]));
            shapes::track(draw, count, speed, size)
        }
        _ => {
            draw.label("points: straights and bends");
            winding(draw, count)
        }
    }
}

// ---- exact circles and near turns

/// The points of whole coordinates on the circle of radius r round the origin, by their angle.
fn lattice(r: i64) -> Vec<[i64; 2]> {
    let on = |x: i64| {
        let y = ((r * r - x * x) as f64).sqrt() as i64;
        (x * x + y * y == r * r).then_some([x, y])
    };
    let quarter: Vec<[i64; 2]> = (1..=r).rev().filter_map(on).collect();
    let quarters: [fn(i64, i64) -> [i64; 2]; 4] = [|x, y| [x, y], |x, y| [-y, x], |x, y| [-x, -y], |x, y| [y, -x]];
    quarters.iter().flat_map(|turned| quarter.iter().map(|p| turned(p[0], p[1]))).collect()
}

/// Some of them, one behind the other, moved by whole numbers and scaled by a power of two: all of it is exact.
fn exact_circle(draw: &mut Draw, count: usize) -> Vec<f64> {
    draw.label("points: exactly on a circle");
    let ring = lattice(draw.of(&[5, 25, 65, 325]));
    let scale = draw.of(&[0.015_625, 0.5, 1.0, 64.0]);
    let middle = [0; 2].map(|_| draw.below(2_000) as f64 - 1_000.0);
    let (from, step) = (draw.below(ring.len()), draw.of(&[1, 1, 1, 2, 5, ring.len() / 2, ring.len() - 1]));
    (0..count)
        .flat_map(|i| {
            let p = ring[(from + i * step) % ring.len()];
            [scale * (middle[0] + p[0] as f64), scale * (middle[1] + p[1] as f64)]
        })
        .collect()
}

/// A whole turn less 0.001, or about that, in equal steps.
fn whole_turn(draw: &mut Draw, count: usize) -> Vec<f64> {
    draw.label("points: about a whole turn");
    let off = draw.of(&[0.0, 1e-9, 1e-7, 9e-7, 1.1e-6, 1e-5, 5e-4, 0.001, 0.002, 0.1, 1.0]);
    let sweep = 2.0 * std::f64::consts::PI - 0.001 + draw.signed(off);
    let step = sweep / count.saturating_sub(1).max(3) as f64;
    let step = draw.signed(step);
    let radius = draw.of(&[0.05, 1.0, 30.0, 1_000.0]);
    let middle = [draw.unit() * 100.0, draw.unit() * 100.0];
    let size = draw.of(&[0.0, 0.0, 1e-10, 0.001]);
    let (c, s) = turn(step);
    let mut spoke = [radius, 0.0];
    let mut list = Vec::with_capacity(2 * count);
    for _ in 0..count {
        list.extend([0, 1].map(|axis| middle[axis] + spoke[axis] + noise(draw, size)));
        spoke = [c * spoke[0] - s * spoke[1], s * spoke[0] + c * spoke[1]];
    }
    list
}

/// Part of a circle, with a point at its middle or just beside that, or one across it.
fn at_the_middle(draw: &mut Draw, count: usize) -> Vec<f64> {
    draw.label("points: one at a circle's middle or across it");
    let radius = draw.of(&[0.5, 10.0, 400.0]);
    let step = draw.of(&[0.02, 0.1, 0.4, 1.0]);
    let (c, s) = turn(step);
    let mut spoke = [radius, 0.0];
    let mut list = Vec::with_capacity(2 * count);
    for _ in 0..count {
        list.extend(spoke);
        spoke = [c * spoke[0] - s * spoke[1], s * spoke[0] + c * spoke[1]];
    }
    if count > 0 {
        let (at, from) = (draw.below(count), draw.below(count));
        for axis in 0..2 {
            let x = -list[2 * from + axis];
            let step = draw.of(&[0.0, 1e-12, 1e-7, 9e-7, 1.1e-6, 1e-5]);
            list[2 * at + axis] = if draw.one_in(3) { x } else { draw.signed(step) };
        }
    }
    list
}

/// Three points and more whose bulge is about a tolerance, on a chord along an axis.
fn bulge(draw: &mut Draw, count: usize) -> Vec<f64> {
    draw.label("points: a bulge on a chord");
    let (length, height) = (draw.of(&[1.0, 10.0, 300.0]), draw.of(&[0.01, 0.25, 1.0, 7.0]));
    let last = count.saturating_sub(1).max(1) as f64;
    (0..count)
        .flat_map(|i| {
            let t = i as f64 / last;
            [length * t, 4.0 * height * t * (1.0 - t)]
        })
        .collect()
}

fn turns(draw: &mut Draw, count: usize) -> Vec<f64> {
    match draw.below(5) {
        0 | 1 => exact_circle(draw, count),
        2 => whole_turn(draw, count),
        3 => at_the_middle(draw, count),
        _ => bulge(draw, count),
    }
}

/// The same shape far from the origin, where the squares of coordinates are rounded by more than a point's noise.
fn move_away(draw: &mut Draw, list: &mut [f64]) {
    draw.label("points: moved far from the origin");
    let by = [0; 2].map(|_| (draw.unit() * 2.0 - 1.0) * 900_000.0);
    for (place, x) in list.iter_mut().enumerate() {
        let moved = *x + by[place % 2];
        *x = if moved.is_nan() { moved } else { moved.clamp(-1_000_000.0, 1_000_000.0) };
    }
}

/// A list of so many triples. Heights are measured by no call, and handed on by a fit.
pub fn points(draw: &mut Draw, count: usize) -> Vec<f64> {
    let mut plane = match draw.below(8) {
        0..3 => recording(draw, count),
        3..6 => turns(draw, count),
        6 => draw.round_trip(count),
        _ => shapes::shape(draw, count),
    };
    if draw.one_in(4) {
        move_away(draw, &mut plane);
    }
    shapes::change(draw, &mut plane);
    if draw.one_in(3) {
        draw.label("heights: hills");
        let (climb, down) = (draw.unit() * 8.0, 1 + draw.below(90));
        let height = |i: usize| climb * (i % (2 * down)).min(2 * down - i % (2 * down)) as f64;
        return plane.chunks(2).enumerate().flat_map(|(i, p)| [p[0], p[1], height(i)]).collect();
    }
    let mut list = shapes::raised(&plane, draw);
    if draw.one_in(8) {
        draw.spoil(&mut list);
    }
    list
}
