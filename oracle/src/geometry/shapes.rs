//! Lists of points to thin: walks, tracks, zigzags and the like, and what is done to a list afterwards.
use super::draw::Draw;

/// A standard track: straights, and half circles between them. A lap is about 400 m.
const STRAIGHT: f64 = 84.39;
const RADIUS: f64 = 36.8;
const HALF_CIRCLE: f64 = RADIUS * std::f64::consts::PI;

/// Cosine and sine by their series, which every machine sums alike; for up to a half turn.
pub fn turn(angle: f64) -> (f64, f64) {
    let (mut cosine, mut sine, mut term) = (0.0, 0.0, 1.0);
    for n in 0..24 {
        match n % 4 {
            0 => cosine += term,
            1 => sine += term,
            2 => cosine -= term,
            _ => sine -= term,
        }
        term *= angle / (n + 1) as f64;
    }
    (cosine, sine)
}

/// The place on the track so many metres after its start.
pub fn on_track(metres: f64) -> [f64; 2] {
    let half = STRAIGHT + HALF_CIRCLE;
    let halves = (metres / half).floor();
    let along = metres - halves * half;
    let [x, y] = if along < STRAIGHT {
        [along - STRAIGHT / 2.0, -RADIUS]
    } else {
        let (cosine, sine) = turn((along - STRAIGHT) / RADIUS);
        [STRAIGHT / 2.0 + RADIUS * sine, -RADIUS * cosine]
    };
    if halves % 2.0 == 0.0 { [x, y] } else { [-x, -y] }
}

/// Noise about zero of about this size.
pub fn noise(draw: &mut Draw, size: f64) -> f64 {
    (draw.unit() + draw.unit() + draw.unit() + draw.unit() - 2.0) * 1.7 * size
}

/// Laps of a track, a point a second, with a receiver's noise: some that stays from point to point, some that does not.
pub fn track(draw: &mut Draw, count: usize, speed: f64, size: f64) -> Vec<f64> {
    let mut drift = [0.0; 2];
    let mut list = Vec::with_capacity(2 * count);
    for i in 0..count {
        let place = on_track(i as f64 * speed);
        for axis in 0..2 {
            drift[axis] = 0.95 * drift[axis] + noise(draw, 0.3 * size);
            list.push(place[axis] + drift[axis] + noise(draw, 0.2 * size));
        }
    }
    list
}

/// A zigzag whose height grows by `step` a point: the farthest point of each range is the one before its end.
pub fn zigzag(count: usize, step: f64) -> Vec<f64> {
    (0..count).flat_map(|i| [i as f64 * step, if i % 2 == 0 { i as f64 * step } else { -(i as f64) * step }]).collect()
}

/// The same points, the last first.
pub fn reversed(list: &[f64]) -> Vec<f64> {
    list.chunks(2).rev().flatten().copied().collect()
}

/// Pairs as triples, with heights that no call measures.
pub fn raised(list: &[f64], draw: &mut Draw) -> Vec<f64> {
    let heights = draw.of(&[0.0, -0.0, 1.0, 1_000_000.0]);
    list.chunks(2).flat_map(|p| [p[0], p[1], if draw.flag() { heights } else { -heights }]).collect()
}

fn walk(draw: &mut Draw, count: usize) -> Vec<f64> {
    let size = draw.of(&[1e-7, 0.01, 1.0, 400.0]);
    let mut place = [0.0f64; 2];
    (0..count)
        .flat_map(|_| {
            place = place.map(|x| (x + noise(draw, size)).clamp(-1_000_000.0, 1_000_000.0));
            place
        })
        .collect()
}

/// Up and down by a whole number, with stretches that do not change: many points are equally far from a chord.
fn steps(draw: &mut Draw, count: usize) -> Vec<f64> {
    let height = 1.0 + draw.below(3) as f64;
    let (up, turned) = (draw.of(&[2, 3, 7]), draw.flag());
    (0..count)
        .flat_map(|i| {
            let y = if draw.one_in(up) { height } else { 0.0 };
            if turned { [y, i as f64] } else { [i as f64, y] }
        })
        .collect()
}

/// Now and then some points stand still.
fn stand_still(draw: &mut Draw, list: &mut [f64]) {
    draw.label("standing still");
    let every = draw.of(&[2, 5, 20]);
    for i in 1..list.len() / 2 {
        if draw.one_in(every) {
            list.copy_within(2 * i - 2..2 * i, 2 * i);
        }
    }
}

/// Puts a point where an earlier one is, or just beside it.
fn return_to(draw: &mut Draw, list: &mut [f64], from: usize, to: usize) {
    for axis in 0..2 {
        let step = draw.of(&[0.0, 0.0, 1e-6, 1e-6f64.next_down(), 9.9e-7, 1e-6f64.next_up(), 7.07e-7, 1e-9]);
        let step = draw.signed(step);
        list[2 * to + axis] = (list[2 * from + axis] + step).clamp(-1_000_000.0, 1_000_000.0);
    }
}

/// From the origin to 1e-6 beside it, where the chord squared is just the limit, or to the next number.
fn close_at_limit(draw: &mut Draw, list: &mut [f64]) {
    draw.label("a chord squared of 1e-12, or just beside it");
    let x = draw.of(&[1e-6, 1e-6, 1e-6f64.next_down(), 1e-6f64.next_up()]);
    let last = list.len() - 2;
    list[..2].fill(0.0);
    list[last..].fill(0.0);
    list[last + draw.below(2)] = draw.signed(x);
}

/// Closes the list, or a part of it, so that a chord is short or nothing.
fn close(draw: &mut Draw, list: &mut [f64]) {
    let count = list.len() / 2;
    if draw.one_in(3) {
        return close_at_limit(draw, list);
    }
    draw.label("a chord of 1e-6 or shorter");
    if draw.flag() {
        draw.label("a closed loop");
        return return_to(draw, list, 0, count - 1);
    }
    for _ in 0..1 + draw.below(4) {
        let to = 1 + draw.below(count - 1);
        let from = draw.below(to);
        return_to(draw, list, from, to);
    }
}

/// Zeros of either sign.
fn flip_zeros(draw: &mut Draw, list: &mut [f64]) {
    for x in list.iter_mut() {
        if *x == 0.0 && draw.flag() {
            *x = -*x;
        }
    }
}

/// So many points in the plane, of one of the shapes.
pub fn shape(draw: &mut Draw, count: usize) -> Vec<f64> {
    match draw.below(8) {
        0 => {
            draw.label("points: a walk");
            walk(draw, count)
        }
        1 => {
            draw.label("points: a track");
            let (speed, size) = (draw.of(&[1.4, 3.7, 4.0, 7.5]), draw.of(&[0.0, 0.5, 3.0]));
            track(draw, count, speed, size)
        }
        2 => {
            draw.label("points: a growing zigzag");
            let step = draw.of(&[0.01, 0.3, 1.0, 400.0]);
            let list = zigzag(count, step);
            if draw.flag() {
                draw.label("points: a falling zigzag");
                return reversed(&list);
            }
            list
        }
        3 => {
            draw.label("points: steps of equal height");
            steps(draw, count)
        }
        // near the origin, where a short chord can be told from a shorter one
        4 => {
            draw.label("points: small");
            (0..2 * count).map(|_| draw.tiny()).collect()
        }
        _ => draw.points(count, 2),
    }
}

/// Now and then changes or spoils a list of points in the plane.
pub fn change(draw: &mut Draw, list: &mut [f64]) {
    if draw.one_in(6) {
        stand_still(draw, list);
    }
    if list.len() > 4 && draw.one_in(4) {
        close(draw, list);
    }
    flip_zeros(draw, list);
    if draw.one_in(4) {
        draw.spoil(list);
    }
}

/// A list of so many points in the plane.
pub fn points(draw: &mut Draw, count: usize) -> Vec<f64> {
    let mut list = shape(draw, count);
    change(draw, &mut list);
    list
}

/// How far a point is from the chord of two others, by x and y: the tolerance at which the cut there is in doubt.
fn distance(p: &[f64], a: &[f64], b: &[f64]) -> f64 {
    let (dx, dy) = (b[0] - a[0], b[1] - a[1]);
    let (x, y) = (p[0] - a[0], p[1] - a[1]);
    let square = dx * dx + dy * dy;
    if square < 1e-12 {
        return (x * x + y * y).sqrt();
    }
    ((x * dy - y * dx) * (x * dy - y * dx) / square).sqrt()
}

/// A tolerance for points of `width` numbers, often just as far as one of them is from a chord.
pub fn tolerance_for(draw: &mut Draw, list: &[f64], width: usize) -> f64 {
    let count = list.len() / width;
    match draw.below(4) {
        0 if count > 2 => {
            draw.label("tolerance at a point's distance");
            let ends = if draw.flag() { [0, count - 1] } else { [0; 2].map(|_| draw.below(count)) };
            let at = |i: usize| &list[width * i..width * i + 2];
            let d = distance(at(draw.below(count)), at(ends[0]), at(ends[1]));
            // it is a NaN for points that are refused
            let t = if d.is_nan() { 1.0 } else { d.clamp(0.001, 1_000.0) };
            if draw.flag() { t } else { draw.near(t).clamp(0.001, 1_000.0) }
        }
        1 => draw.edge(&[(1.0, "tolerance whole"), (2.0, "tolerance whole"), (3.0, "tolerance whole")]),
        _ => draw.tolerance(),
    }
}
