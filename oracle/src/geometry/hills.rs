//! The hill fit of lap files (document 02, §14), beside `fit_arcs` of the Rust into which the distance to the segment in x, y and z
//! is put and out of which both arc trials are taken (`oracle/raygeo_hills`). No arc is tried, so no margin is asked: every byte is
//! compared. Reading, rows and the bytes of a file are those of the flat fit, in `laps.rs`.
//!
//! "In a course without Beziers whose points share one z, it gives the flat fit's thinned points": a lap of that kind is compared
//! besides with Lines to the points that the flat fit's thinning keeps.
use super::calls::pz_fit_hills;
use super::draw::Draw;
use super::fit::{Judged, Stands};
use super::frame::{Compared, Function};
use super::laps::{self, FileFit, Started, carried, counts, fit_by, laps_of, left, started, written_lap};
use super::out_and_back;
use super::shapes::{noise, on_track};
use super::simplify::Commands;
use raygeo::geo::types::{Command, Point3D};
use raygeo_hills::geo::algo::fitting::fit_arcs;
use raygeo_hills::hills;
use raygeo_segment::geo::algo::simplify::simplify_polyline_3d;

pub const FUNCTIONS: [Function; 3] = [draw_any, draw_hilly, draw_level];

const HILLS: FileFit = FileFit {
    function: "fit_hills",
    proved: pz_fit_hills,
    lap: |data, tolerance| (fit_arcs(data, tolerance), Stands::UNTRIED),
};

// ---- both sides

pub fn hills_of(recorded: &[u8], tolerance: f64, room: usize) -> Judged {
    fit_by(&HILLS, recorded, tolerance, room)
}

/// Whether a course has no Bezier and one z, by value: −0 is +0.
fn is_level(course: &[Command]) -> bool {
    let height = course.first().map_or(0.0, |command| command.end_point().z);
    course.iter().all(|command| !matches!(command, Command::Bezier { .. }) && command.end_point().z == height)
}

/// What stays of a course as it is, and Lines to the points that the flat fit's thinning keeps of each chain between.
fn thinned(course: &[Command], tolerance: f64) -> Vec<Command> {
    let (mut all, mut chain) = (Vec::new(), Vec::<Point3D>::new());
    let flush = |chain: &mut Vec<Point3D>, all: &mut Vec<Command>| {
        all.extend(simplify_polyline_3d(chain, tolerance).into_iter().skip(1).map(|end| Command::Line { end }));
        chain.clear();
    };
    for command in course {
        if !matches!(command, Command::Line { .. }) {
            flush(&mut chain, &mut all);
            all.push(command.clone());
        }
        chain.push(command.end_point());
    }
    flush(&mut chain, &mut all);
    all
}

/// The call, with the bodies of level laps expected as thinning leaves them, where it is accepted and both sides are equal.
fn beside_the_flat_fit(draw: &mut Draw, mut call: Compared, drawn: &(Vec<u8>, f64, usize)) -> Compared {
    let (recorded, tolerance, room) = drawn;
    if call.given.number != 0 || call.proved != call.given {
        return call;
    }
    let count = call.given.lent[1].words()[0] as usize;
    let fitted = laps::first_bytes(&call.given.lent[0], count);
    let bodies = laps::bodies(&fitted).expect("a fitted file");
    let laps = started(&laps_of(recorded).expect("a table that was accepted"));
    let expected = |(lap, body): (&Started, &[u8])| {
        let course = lap.commands.given();
        if is_level(&course) { written_lap(lap, &thinned(&course, *tolerance)) } else { body.to_vec() }
    };
    let expected: Vec<Vec<u8>> = laps.iter().zip(bodies).map(expected).collect();
    if laps.iter().any(|lap| is_level(&lap.commands.given())) {
        draw.label("a lap with one z: the flat fit's thinned points");
        call.given.lent = left(&call.given.lent, *room, &laps::file(&expected));
    }
    call
}

/// Calls both sides on a file, a tolerance and an output's room.
fn compared(draw: &mut Draw, drawn: (Vec<u8>, f64, usize)) -> Compared {
    let call = hills_of(&drawn.0, drawn.1, drawn.2).labelled(draw);
    beside_the_flat_fit(draw, call, &drawn)
}

// ---- inputs

/// How the height changes along a lap.
#[derive(Clone, Copy)]
enum Relief {
    Climb,
    Sawtooth,
    Stairs,
    Tiny,
}

const CLIMB: &str = "heights: a climb";
const SAWTOOTH: &str = "heights: a sawtooth";
const STAIRS: &str = "heights: stairs of whole metres";
const TINY: &str = "heights: about a millionth of a metre";
const SLOPE: &str = "heights: up and down one slope";
const AT_ONE_PLACE: &str = "heights: all at one place";

/// The labels of laps over hills.
const LABELS: [&str; 6] = [CLIMB, SAWTOOTH, STAIRS, TINY, SLOPE, AT_ONE_PLACE];

/// A height for each of so many points.
fn heights(draw: &mut Draw, count: usize) -> Vec<f64> {
    let reliefs =
        [(Relief::Climb, CLIMB), (Relief::Sawtooth, SAWTOOTH), (Relief::Stairs, STAIRS), (Relief::Tiny, TINY)];
    let relief = draw.edge(&reliefs);
    let (start, rise) = (draw.of(&[0.0, 0.0, 350.5, -999_000.0]), draw.of(&[0.1, 0.4, 1.0, 30.0]));
    let (period, size) = (draw.of(&[2, 3, 8, 40]), draw.of(&[0.0, 0.3, 2.0]));
    let mut height = |i: usize| match relief {
        Relief::Climb => rise * i as f64 + noise(draw, size),
        Relief::Sawtooth => rise * (i % (2 * period)).abs_diff(period) as f64,
        Relief::Stairs => (i / period) as f64 + draw.below(2) as f64,
        Relief::Tiny => draw.of(&[0.0, -0.0, 1e-6, -1e-6, 1e-6f64.next_down(), 1e-6f64.next_up(), 7.07e-7, 1e-9]),
    };
    // nothing is added to the smallest, which would be lost in the sum
    (0..count).map(|i| if matches!(relief, Relief::Tiny) { height(i) } else { start + height(i) }).collect()
}

/// So many triples along one slope, up and down between marks: in a direction in which they round or not, straight up too.
fn slope(draw: &mut Draw, count: usize) -> Vec<f64> {
    draw.label(SLOPE);
    let start = draw.of(&[[0.0; 3], [0.0; 3], [0.2, 0.0, 0.0], [0.1, 0.7, 0.3], [-250_000.3, 700_000.1, 812_000.7]]);
    let (up, ramp) = ([0.0, 0.0, 1.0], [1.0, 0.0, 1.0]);
    let to =
        draw.of(&[up, ramp, [1.0, 0.0, 0.0], [0.0, 0.6, -0.8], [2.0, 3.0, 6.0], [0.3, 0.1, 0.7], [-0.01, 0.07, 0.02]]);
    let size = draw.of(&[0.0, 0.0, 0.0, 1e-9, 0.05, 2.0]);
    let places = out_and_back::shuttle(draw, count);
    places
        .iter()
        .flat_map(|place| [0, 1, 2].map(|axis| start[axis] + place[0] * to[axis] + noise(draw, size)))
        .collect()
}

/// So many triples of heights over a course, over a lap of the track, or over one place.
fn over_a_course(draw: &mut Draw, count: usize) -> Vec<f64> {
    let mut ends: Vec<f64> = match draw.below(4) {
        0 => {
            draw.label(AT_ONE_PLACE);
            let place = draw.of(&[[0.0, 0.0, 0.0], [12.5, -3.25, 0.0]]);
            place.into_iter().cycle().take(3 * count).collect()
        }
        1 => (0..count).map(|i| on_track(4.0 * i as f64)).flat_map(|p| [p[0], p[1], 0.0]).collect(),
        _ => out_and_back::points(draw, count),
    };
    let heights = heights(draw, count);
    ends.chunks_exact_mut(3).zip(heights).for_each(|(end, height)| end[2] = height);
    ends
}

/// A lap of so many commands over hills.
fn hill_lap(draw: &mut Draw, count: usize) -> Commands {
    let ends = if draw.one_in(3) { slope(draw, count) } else { over_a_course(draw, count) };
    laps::lap_through(draw, &ends)
}

/// The laps of a recording over hills, all in order.
fn hilly(draw: &mut Draw) -> Vec<Commands> {
    let counts = counts(draw);
    let kept = draw.labels();
    let mut laps: Vec<Commands> = counts.into_iter().map(|count| hill_lap(draw, count)).collect();
    // of the laps' own labels there would be as many as there are laps
    let own = draw.labels();
    kept.into_iter().chain(LABELS.into_iter().filter(|label| own.contains(label))).for_each(|label| draw.label(label));
    carried(draw, &mut laps);
    laps
}

/// How far a point of a lap is from the segment between one before and one behind it, in x, y and z.
fn at_a_distance(draw: &mut Draw, lap: &Commands) -> f64 {
    draw.label("tolerance at a point's distance from a segment in space");
    let end = |i: usize| Point3D::new(lap.numbers[9 * i], lap.numbers[9 * i + 1], lap.numbers[9 * i + 2]);
    let last = lap.kinds.len() - 1;
    let from = draw.below(last - 1);
    let to = from + 2 + draw.below((last - from - 1).min(9));
    let (p, a, b) = (end(from + 1 + draw.below(to - from - 1)), end(from), end(to));
    let distance = hills::square(p, a, b, hills::apart(b, a)).sqrt();
    // it is a NaN where the ends are one point
    let tolerance = if distance.is_nan() { 1.0 } else { distance.clamp(0.001, 1_000.0) };
    if draw.flag() { tolerance } else { draw.near(tolerance).clamp(0.001, 1_000.0) }
}

fn tolerance_for(draw: &mut Draw, laps: &[Commands]) -> f64 {
    let long = laps.iter().find(|lap| lap.kinds.len() > 2);
    match long {
        Some(lap) if draw.one_in(3) => at_a_distance(draw, lap),
        _ => laps::tolerance_for(draw, laps),
    }
}

/// A file as the flat fit's are drawn.
fn draw_any(draw: &mut Draw) -> Compared {
    let drawn = laps::any_file(draw);
    compared(draw, drawn)
}

/// A file over hills.
fn draw_hilly(draw: &mut Draw) -> Compared {
    let laps = hilly(draw);
    let tolerance = tolerance_for(draw, &laps);
    let drawn = laps::file_with(draw, laps, tolerance);
    compared(draw, drawn)
}

/// A file at one height, with Lines for its Beziers; zeros are of either sign.
fn draw_level(draw: &mut Draw) -> Compared {
    let mut laps = if draw.flag() { hilly(draw) } else { laps::laps(draw) };
    let height =
        draw.edge(&[(0.0, "one z: 0 of either sign"), (12.5, "one z"), (-350.1, "one z"), (1_000_000.0, "one z")]);
    for lap in &mut laps {
        for (kind, nine) in lap.kinds.iter_mut().zip(lap.numbers.chunks_exact_mut(9)) {
            nine[2] = if height == 0.0 { draw.signed(height) } else { height };
            if *kind == 3 {
                *kind = 1;
                nine[3..].fill(0.0);
            }
        }
    }
    let tolerance = tolerance_for(draw, &laps);
    let drawn = laps::file_with(draw, laps, tolerance);
    compared(draw, drawn)
}
