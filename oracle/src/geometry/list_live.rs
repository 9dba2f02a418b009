//! The recorded calls of the live thinner. A record's words 2 and 3 are the count and the flag, its numbers the slots and then
//! the point that is fed or the new tolerance; written are the slots afterwards and then the ends, and the count is that of the
//! ends and 64 times four times that of the points, with 2 where the thinner is closed.
use super::draw::Draw;
use super::frame::{Compared, Outcome};
use super::lent::{Lent, patterns};
use super::list::{Record, filled, record};
use super::live::{MOST, NUMBERS, SLOTS, State, Triple, another, forged, room_for_ends};
use super::shapes::{raised, track};
use super::table;
use crate::random::Random;

fn recorded(
    function: &'static str,
    before: &State,
    own: &[f64],
    room: usize,
    refused: u32,
    after: impl FnOnce(&mut State) -> Vec<Triple>,
) -> Compared {
    let (mut s, mut lent) = (before.clone(), vec![Lent::room(NUMBERS + room), Lent::count()]);
    if refused == 0 {
        let ends = after(&mut s);
        let count = 64 * (4 * s.count + 2 * (s.closed != 0) as usize) + ends.len();
        let written = [patterns(&s.points), patterns(&ends.concat())].concat();
        lent = vec![lent[0].written(&written), lent[1].written(&[count as u64])];
    }
    let outcome = Outcome { number: refused, lent };
    let arguments = vec![
        ("tolerance", patterns(&[before.tolerance])),
        ("range", vec![before.count as u64, before.closed as u64]),
        ("points", patterns(&before.points)),
        ("numbers", patterns(own)),
    ];
    Compared { function, arguments, proved: outcome.clone(), given: outcome }
}

fn start(tolerance: f64) -> Compared {
    let refused = if table::tolerance(tolerance) { 0 } else { 6 };
    recorded("live_start", &State::new(tolerance), &[], 3, refused, |_| vec![])
}

fn feed(s: &State, p: Triple) -> Compared {
    recorded("live_feed", s, &p, 3, s.refusal(&p), |s| s.feed(p).into_iter().collect())
}

fn close(s: &State) -> Compared {
    recorded("live_close", s, &[], 3, s.refusal(&[]), |s| s.close().into_iter().collect())
}

fn retune(s: &State, finer: f64, room: usize) -> Compared {
    let refused = s.retune_refusal(finer, room);
    recorded("live_retune", s, &[finer], room, refused, |s| s.retune(finer).into_iter().map(|end| end.1).collect())
}

/// A run of a track, call by call, to the close and past it.
fn run(draw: &mut Draw, points: usize, tolerance: f64) -> Vec<Compared> {
    let plane = track(draw, points, 4.0, 1.0);
    let list = raised(&plane, draw);
    let (mut s, mut calls) = (State::new(tolerance), vec![start(tolerance)]);
    for p in list.chunks(3) {
        let p = [p[0], p[1], p[2]];
        calls.push(feed(&s, p));
        s.feed(p);
    }
    calls.extend([0.01, 1.0, tolerance, 1_000.0].map(|finer| retune(&s, finer, 3 * MOST)));
    calls.push(close(&s));
    s.close();
    calls.extend([feed(&s, [0.0; 3]), close(&s), retune(&s, 1.0, 0), retune(&s, 0.0, 0)]);
    calls
}

/// A point exactly at the tolerance, and one just below it.
fn corners() -> Vec<Compared> {
    let mut calls = Vec::new();
    for tolerance in [3.0, 3f64.next_up(), 3f64.next_down()] {
        let mut s = State::new(tolerance);
        s.feed([0.0, 0.0, 1.0]);
        s.feed([1.0, 3.0, 2.0]);
        calls.push(feed(&s, [2.0, 0.0, 3.0]));
    }
    for count in [0, 1, 2, SLOTS, SLOTS + 1] {
        let s = State { count, ..State::new(1.0) };
        calls.extend([feed(&s, [1.0, 2.0, 3.0]), close(&s), feed(&s, [f64::NAN, 2.0, 3.0])]);
    }
    calls.extend([0.001, 1_000.0, 0.0, f64::NAN].map(start));
    let mut zigzag = State::new(1_000.0);
    (0..SLOTS).for_each(|i| assert!(zigzag.feed([0.0, [0.0, 3.0][i % 2], 0.0]).is_none()));
    calls.extend([3 * MOST, 3 * MOST - 3, 3 * MOST + 1, 3 * MOST + 3].map(|room| retune(&zigzag, 1.0, room)));
    calls
}

/// Runs whole, the corners, and then calls on forged states.
pub fn records(count: usize, seed: u64) -> Vec<Record> {
    let mut draw = Draw::new(Random::new(seed));
    let fixed = [corners(), run(&mut draw, 12, 1.0), run(&mut draw, 68, 1_000.0)];
    filled(fixed.iter().flatten().map(record).collect(), count, |index| {
        let (s, p) = forged(&mut draw);
        let finer = another(&mut draw, s.tolerance);
        Some(record(&match index % 4 {
            0 => close(&s),
            1 => retune(&s, finer, room_for_ends(&mut draw)),
            _ => feed(&s, p),
        }))
    })
}
