//! The recorded hill fits of lap files (document 02, §14).
use super::draw::Draw;
use super::fit::Judged;
use super::hills::{FUNCTIONS, hills_of};
use super::laps::{carry_on, recording};
use super::list::{Record, filled, record};
use super::simplify::Commands;
use crate::random::Random;

/// A drawn record has at most so many bytes.
const LONG: usize = 6_000;

/// Room for every file.
const ROOM: usize = 58_920;

/// Lines to these places in space, the first a Move.
fn lines(places: &[[f64; 3]]) -> Commands {
    let kinds = (0..places.len()).map(|i| (i > 0) as u8).collect();
    let numbers = places.iter().flat_map(|p| [p[0], p[1], p[2], 0.0, 0.0, 0.0, 0.0, 0.0, 0.0]).collect();
    Commands { kinds, numbers }
}

/// The fit of one lap, with room for every file.
fn fit(lap: Commands, tolerance: f64) -> Judged {
    hills_of(&recording(&[lap]), tolerance, ROOM)
}

/// The fit of a lap, of which the driver asks that it keeps so many points.
fn kept(places: &[[f64; 3]], tolerance: f64, count: usize) -> Judged {
    let judged = fit(lines(places), tolerance);
    assert_eq!(judged.call.given.lent[1].words()[0] as usize, 16 + 73 * count, "so many points stay");
    judged
}

/// Climbs that the flat fit leaves out, an even slope, the out-and-back of document 02, §4, along the ground and straight up; a
/// summit at the tolerance and just above it; start + 1 × (end − start) beside the end in each coordinate.
fn worked() -> Vec<Judged> {
    let summit = |z: f64| [[0.0, 0.0, 0.0], [50.0, 0.0, z], [100.0, 0.0, 0.0]];
    let mut all = vec![
        kept(&summit(30.0), 0.5, 3),
        kept(&[[0.0, 0.0, 0.0], [50.0, 0.0, 25.0], [100.0, 0.0, 50.0]], 0.5, 2),
        kept(&summit(0.5), 0.5, 2),
        kept(&summit(0.5f64.next_up()), 0.5, 3),
    ];
    for axis in 0..3 {
        let along = |metres: [f64; 3]| metres.map(|m| [0, 1, 2].map(|a| if a == axis { m } else { 0.0 }));
        all.push(kept(&along([0.0, 100.0, 50.0]), 0.5, 3));
        all.push(kept(&along([0.0, 100.0, -50.0]), 0.5, 3));
        all.push(kept(&along([0.2, 1.0, 0.9]), 0.1, 3));
        all.push(kept(&along([0.0, 50.0, 100.0]), 0.5, 2));
    }
    all
}

/// A bend, of which the flat fit makes an Arc; one with a recorded Arc, which stays, and a recorded Bezier, which does not.
fn bends() -> Vec<Judged> {
    let bend = lines(&[[3.0, 4.0, 1.0], [4.0, 3.0, 1.0], [5.0, 0.0, 1.0]]);
    let with = |kind: u8, nine: [f64; 9]| {
        let mut lap = lines(&[[0.0, 0.0, 0.0], [4.0, 0.0, 3.0]]);
        lap.kinds.extend([kind, 1, 1]);
        lap.numbers.extend(nine);
        lap.numbers.extend([9.0, 9.0, 4.0, 0.0, 0.0, 0.0, 0.0, 0.0, 0.0, 9.0, 12.0, 1.0, 0.0, 0.0, 0.0, 0.0, 0.0, 0.0]);
        lap
    };
    let arc = with(2, [9.0, 4.0, 7.0, 2.0, 2.0, 0.0, 0.0, 0.0, 1.0]);
    let curve = with(3, [9.0, 4.0, 7.0, 5.0, 0.0, 9.0, 9.0, 1.0, -2.0]);
    let tolerances = [0.45, 0.3, 0.25];
    let laps = [bend, arc, curve];
    laps.iter().flat_map(|lap| tolerances.map(|tolerance| fit(lap.clone(), tolerance))).collect()
}

/// Ends that are one point in the plane and not in space, about 1e-6 apart in one coordinate or in all, and one point; and from
/// such ends a point 2 m off, at a tolerance that is between its distances from either.
fn closed() -> Vec<Judged> {
    let ends = [1e-6, 1e-6f64.next_down(), 1e-6f64.next_up(), 0.0, -0.0, 5.0];
    let loops = ends.iter().flat_map(|end| {
        [[0.0, 0.0, *end], [*end, 0.0, 0.0], [*end; 3]].map(|end| [[0.0; 3], [0.0, 0.0, 2.0], [1.0, 1.0, 1.0], end])
    });
    let spikes = ends.iter().map(|end| [[0.0; 3], [0.0, 0.0, 2.0], [0.0, 0.0, *end]]);
    let loops = loops.map(|places| fit(lines(&places), 0.5));
    loops.chain(spikes.map(|places| fit(lines(&places), 2.0 - 4e-7))).collect()
}

/// One height: zeros of either sign, and heights at the limits.
fn level() -> Vec<Judged> {
    let heights = [[0.0, -0.0], [12.5, 12.5], [-1_000_000.0, -1_000_000.0], [1_000_000.0, -1_000_000.0]];
    let places =
        |h: &[f64; 2]| [[0.0, 0.0, h[0]], [40.0, 1.0, h[1]], [80.0, 0.0, h[0]], [60.0, 0.0, h[1]], [60.0, 9.0, h[1]]];
    heights.iter().flat_map(|h| [0.5, 2.0].map(|tolerance| fit(lines(&places(h)), tolerance))).collect()
}

/// Laps that carry on, from a height, behind a lap of Lines, of an Arc, and of one command.
fn carried_on() -> Vec<Judged> {
    let carried = |places: &[[f64; 3]]| {
        let mut lap = lines(places);
        carry_on(&mut lap);
        lap
    };
    let mut first = lines(&[[0.0, 0.0, 0.0], [4.0, 0.0, 9.0]]);
    first.kinds.push(2);
    first.numbers.extend([9.0, 4.0, 20.0, 2.0, 2.0, 0.0, 0.0, 0.0, 1.0]);
    let laps = [
        first,
        carried(&[[0.0; 3], [9.0, 14.0, 10.0], [9.0, 24.0, 0.0]]),
        carried(&[[0.0; 3], [9.0, 24.0, 30.0]]),
        carried(&[[0.0; 3], [9.0, 24.0, 60.0], [9.0, 24.0, 45.0]]),
    ];
    let recorded = recording(&laps);
    vec![
        hills_of(&recorded, 0.5, ROOM),
        hills_of(&recorded, 0.5, 8 + 8 * 4 + 73 * 8),
        hills_of(&recorded, 0.5, 8 + 8 * 4 + 73 * 8 - 1),
        hills_of(&recording(&laps[1..]), 0.5, ROOM),
    ]
}

/// No lap, refusals in number order, 64 laps and 65, 800 commands and 801.
fn edges() -> Vec<Judged> {
    let one = recording(&[lines(&[[1.0, 2.0, 3.0]])]);
    let single = |count: usize| recording(&vec![lines(&[[1.0, 2.0, 3.0]]); count]);
    let stairs = |count: usize| {
        let places: Vec<[f64; 3]> = (0..count).map(|i| [i as f64, 0.0, (i / 7 % 5) as f64]).collect();
        recording(&[lines(&places)])
    };
    let mut unused = one.clone();
    unused[88] = 0x80;
    let far = recording(&[lines(&[[0.0; 3], [0.0, 0.0, 1_000_000f64.next_up()]])]);
    vec![
        hills_of(&recording(&[]), 0.5, 8),
        hills_of(&recording(&[]), 0.5, 7),
        hills_of(&[], 0.5, 0),
        hills_of(&one, 0.5, 89),
        hills_of(&one, 0.5, 88),
        hills_of(&one, 0.0, ROOM),
        hills_of(&one[..88], 0.5, ROOM),
        hills_of(&unused, 0.5, ROOM),
        hills_of(&far, 0.5, ROOM),
        hills_of(&single(64), 2.0, 520 + 64 * 73),
        hills_of(&single(65), 2.0, ROOM),
        hills_of(&stairs(800), 0.5, 16 + 800 * 73),
        hills_of(&stairs(801), 0.5, ROOM),
    ]
}

/// The fixed calls, and then drawn ones. One that is long is drawn again.
pub fn records(count: usize, seed: u64) -> Vec<Record> {
    let mut draw = Draw::new(Random::new(seed));
    let fixed = [worked(), bends(), closed(), level(), carried_on(), edges()];
    let fixed: Vec<Record> = fixed.iter().flatten().map(|judged| record(&judged.call)).collect();
    filled(fixed, count, |index| {
        let call = FUNCTIONS[index % FUNCTIONS.len()](&mut draw);
        assert!(call.proved == call.given, "a difference in {}", call.function);
        let record = record(&call);
        (record.bytes.len() <= LONG).then_some(record)
    })
}
