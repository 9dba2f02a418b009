//! The recorded fits of lap files and replacements of laps. A call stands in the list only where document 01's margins hold for
//! each lap.
use super::draw::Draw;
use super::fit::Judged;
use super::laps::{FUNCTIONS, Replacement, carry_on, first_bytes, fit_of, lap, recording, replacement_of, workout};
use super::list::{Record, filled, record};
use super::margins::Margins;
use super::simplify::Commands;
use crate::random::Random;

/// A drawn record has at most so many bytes.
const LONG: usize = 8_032;

/// Lines to these places, the first a Move.
fn lines(plane: &[f64]) -> Commands {
    let kinds = (0..plane.len() / 2).map(|i| (i > 0) as u8).collect();
    let numbers = plane.chunks(2).flat_map(|p| [p[0], p[1], 0.0, 0.0, 0.0, 0.0, 0.0, 0.0, 0.0]).collect();
    Commands { kinds, numbers }
}

/// Room for every file.
const ROOM: usize = 58_920;

/// Document 01's worked cases as files of one lap, and the file without a lap.
fn worked() -> Vec<Judged> {
    let corner = recording(&[lines(&[0.0, 0.0, 10.0, 0.0, 10.0, 10.0])]);
    let bend = recording(&[lines(&[3.0, 4.0, 4.0, 3.0, 5.0, 0.0])]);
    let empty = recording(&[]);
    let far = [1_000_000.0, 1_000_000f64.next_up()].map(|x| recording(&[lines(&[0.0, 0.0, x, 1.0])]));
    vec![
        fit_of(&empty, 0.5, 8),
        fit_of(&empty, 0.5, 7),
        fit_of(&empty[..7], 0.5, ROOM),
        fit_of(&[], 0.5, 0),
        fit_of(&far[0], 0.001, ROOM),
        fit_of(&far[1], 0.001, ROOM),
        fit_of(&recording(&[lines(&[1.0, 2.0])]), 0.5, 89),
        fit_of(&corner, 0.5, 16 + 3 * 73),
        fit_of(&corner, 0.001, ROOM),
        fit_of(&corner, 0.0, ROOM),
        fit_of(&bend, 0.45, ROOM),
        fit_of(&bend, 0.3, ROOM),
        fit_of(&bend, 0.25, ROOM),
    ]
}

/// Document 02, §4: "The worked (0,0),(100,0),(50,0)": as a lap, at 0.5, it keeps all its points and gives two Lines. As a file
/// of one lap, and put in the place of another lap.
fn shuttle() -> Vec<Judged> {
    let (lap, other) = (lines(&[0.0, 0.0, 100.0, 0.0, 50.0, 0.0]), recording(&[lines(&[1.0, 2.0])]));
    let recorded = recording(std::slice::from_ref(&lap));
    let calls = vec![
        fit_of(&recorded, 0.5, ROOM),
        replacement_of(&Replacement {
            recorded: other.clone(),
            fitted: other,
            lap: 1,
            new: lap,
            tolerance: 0.5,
            room: ROOM,
        }),
    ];
    for one in &calls {
        let left = &one.call.given.lent;
        assert_eq!(first_bytes(&left[0], left[1].words()[0] as usize), recorded, "two Lines, as recorded");
    }
    calls
}

/// A file of two laps with one bit changed in each byte of its head and table in turn, and in those of a fitted file.
fn flipped() -> Vec<Judged> {
    let whole = recording(&[lines(&[1.0, 2.0]), lines(&[3.0, 4.0])]);
    let changed = |place: usize| {
        let mut bytes = whole.clone();
        bytes[place] ^= 1;
        bytes
    };
    let replaced = |place: usize| Replacement {
        recorded: whole.clone(),
        fitted: changed(place),
        lap: 2,
        new: lines(&[5.0, 6.0]),
        tolerance: 1.0,
        room: ROOM,
    };
    let fits = (0..24).map(|place| fit_of(&changed(place), 1.0, ROOM));
    fits.chain((0..24).map(|place| replacement_of(&replaced(place)))).collect()
}

/// Each lap of three replaced by another, laps that there are not, and a new lap without a Move.
fn replacements(draw: &mut Draw) -> Vec<Judged> {
    let laps = [lap(draw, 9), lines(&[0.0, 0.0, 10.0, 0.0, 10.0, 10.0]), lap(draw, 14)];
    let recorded = recording(&laps);
    let fitted = recording(&[lines(&[3.0, 4.0]), lines(&[9.0, 8.0, 7.0, 6.0]), lines(&[1.0, 1.0, 2.0, 2.0, 4.0, 0.0])]);
    let new = lines(&[3.0, 4.0, 4.0, 3.0, 5.0, 0.0]);
    let mut without = new.clone();
    without.kinds[0] = 1;
    let calls = (0..5).map(|lap| (lap, &new)).chain([(2, &without)]);
    calls
        .map(|(lap, new)| Replacement {
            recorded: recorded.clone(),
            fitted: fitted.clone(),
            lap,
            new: new.clone(),
            tolerance: 0.3,
            room: ROOM,
        })
        .map(|r| replacement_of(&r))
        .collect()
}

/// Laps that carry on behind a Bezier, behind an Arc, behind another of one command, and behind a Move alone; one that
/// carries on in front of all; and each of them replaced by a lap with its Move and by one without.
fn carried_on() -> Vec<Judged> {
    let carried = |plane: &[f64]| {
        let mut lap = lines(plane);
        carry_on(&mut lap);
        lap
    };
    let curve = [5.0, 0.0, 0.0, 3.0, 8.0, 0.0, 6.0, 4.0, 0.0];
    let bend = [9.0, 4.0, 0.0, 2.0, 2.0, 0.0, 0.0, 0.0, 1.0];
    let with = |kind: u8, nine: [f64; 9], mut lap: Commands| {
        lap.kinds.push(kind);
        lap.numbers.extend(nine);
        lap
    };
    let first = with(3, curve, lines(&[0.0, 0.0, 4.0, 0.0]));
    let laps = [
        first,
        with(2, bend, carried(&[0.0, 0.0, 5.0, 4.0])),
        carried(&[0.0, 0.0, 9.0, 9.0]),
        carried(&[0.0, 0.0, 20.0, 9.0, 12.0, 9.0]),
        lines(&[7.0, 7.0]),
        carried(&[0.0, 0.0, 7.0, 3.0, 10.0, 3.0, 10.0, 9.0]),
    ];
    let recorded = recording(&laps);
    let fitted = recording(&laps.clone().map(|lap| Commands { kinds: vec![1; lap.kinds.len()], ..lap }));
    let new = [lines(&[3.0, 4.0, 4.0, 3.0, 5.0, 0.0]), carried(&[0.0, 0.0, 4.0, 3.0, 5.0, 0.0])];
    let calls = (0..8).flat_map(|lap| new.iter().map(move |new| (lap, new)));
    let replaced = calls.map(|(lap, new)| Replacement {
        recorded: recorded.clone(),
        fitted: fitted.clone(),
        lap,
        new: new.clone(),
        tolerance: 0.3,
        room: ROOM,
    });
    let fits = [fit_of(&recorded, 0.3, ROOM), fit_of(&recording(&laps[1..]), 0.3, ROOM)];
    fits.into_iter().chain(replaced.map(|r| replacement_of(&r))).collect()
}

/// A Move and an Arc, and a Move and a Bezier, with each number behind the end out of the domain in turn.
fn beyond() -> Vec<Judged> {
    let file = |kind: u8, place: usize, x: f64| {
        let mut lap = lines(&[0.0, 0.0]);
        let mut nine = [9.0, 4.0, 0.0, 2.0, 2.0, 0.0, 0.0, 0.0, 1.0];
        nine[place] = x;
        lap.kinds.push(kind);
        lap.numbers.extend(nine);
        recording(&[lap])
    };
    let arcs = (3..9).map(|place| fit_of(&file(2, place, f64::INFINITY), 1.0, ROOM));
    arcs.chain((3..9).map(|place| fit_of(&file(3, place, 1_000_000f64.next_up()), 1.0, ROOM))).collect()
}

/// A workout of six laps as it is and with something wrong at its last command, a lap without a Move, 64 laps and 65, 800
/// commands and 801, the most bytes and one more.
fn edges(draw: &mut Draw) -> Vec<Judged> {
    let laps = workout(draw);
    let (whole, mut spoilt) = (recording(&laps), recording(&laps));
    let end = spoilt.len();
    // the kind of the last command, and then one of its unused numbers
    spoilt[end - 73] = 0;
    let unused = [&whole[..end - 1], &[0x80]].concat();
    let single = |count: usize| recording(&vec![lines(&[1.0, 2.0]); count]);
    let most = |count: usize| recording(&[lines(&vec![5.0; 2 * count])]);
    let mut without = single(1);
    without[16] = 1;
    let padded = |count: usize| [single(1), vec![0; count]].concat()[..count].to_vec();
    vec![
        fit_of(&whole, 2.0, ROOM),
        fit_of(&whole, 5.0, ROOM),
        fit_of(&spoilt, 2.0, ROOM),
        fit_of(&unused, 2.0, ROOM),
        fit_of(&without, 2.0, ROOM),
        fit_of(&padded(65_536), 2.0, ROOM),
        fit_of(&padded(65_537), 2.0, ROOM),
        fit_of(&single(64), 2.0, 520 + 64 * 73),
        fit_of(&single(64), 2.0, 519 + 64 * 73),
        fit_of(&single(65), 2.0, ROOM),
        fit_of(&most(800), 2.0, 16 + 800 * 73),
        fit_of(&most(801), 2.0, ROOM),
    ]
}

/// The worked cases, the shuttle, changed bits, replacements, laps that carry on, numbers out of the domain, the edges, and then
/// drawn calls, half of them replacements. One that is long, or whose answer is not owed, is drawn again.
pub fn records(count: usize, seed: u64) -> Vec<Record> {
    let mut draw = Draw::new(Random::new(seed));
    let fixed = [worked(), shuttle(), flipped(), replacements(&mut draw), carried_on(), beyond(), edges(&mut draw)];
    let inside = |call: &&Judged| call.stands.is_none_or(|stands| stands.margins != Margins::Outside);
    let fixed: Vec<Record> = fixed.iter().flatten().filter(inside).map(|judged| record(&judged.call)).collect();
    draw.labels();
    filled(fixed, count, |index| {
        let call = FUNCTIONS[[0, 1, 1, 2][index % 4]](&mut draw);
        assert!(call.proved == call.given, "a difference in {}", call.function);
        let record = record(&call);
        (record.bytes.len() <= LONG && !draw.labels().contains(&Margins::Outside.label())).then_some(record)
    })
}
