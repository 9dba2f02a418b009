//! The recorded calls of the fewest straights. A record's words 2 and 3 are the budget and the pairs tested; the count is that of
//! the Lines, and 256 times the lower bound.
use super::draw::Draw;
use super::fewest::{FUNCTIONS, Input, MOST_POINTS, model, straights};
use super::frame::{Compared, Outcome};
use super::lent::Lent;
use super::list::{Record, filled, record};
use super::shapes::{track, zigzag};
use super::simplify::triples;
use crate::random::Random;

/// A drawn record has at most so many numbers.
const LONG: usize = 400;

/// The call as a record carries it, by its tolerance, its budget and its points.
fn recorded(call: &Compared) -> Record {
    assert!(call.proved == call.given, "a difference in {}", call.function);
    let argument = |name: &str| call.arguments.iter().find(|(own, _)| *own == name).expect("an argument").1.clone();
    let lent = &call.given.lent;
    let told = |place: usize| if call.given.number == 0 { lent[place].words()[0] } else { 0 };
    let (count, tested, bound) = (told(1), told(2), told(3));
    let lent = vec![lent[0].clone(), Lent::count().written(&[count + MOST_POINTS as u64 * bound])];
    let outcome = Outcome { number: call.given.number, lent };
    let arguments = vec![
        ("tolerance", argument("tolerance")),
        ("range", vec![argument("budget")[0], tested]),
        ("points", argument("points")),
    ];
    record(&Compared { function: call.function, arguments, proved: outcome.clone(), given: outcome })
}

fn raised(flat: &[f64]) -> Vec<f64> {
    flat.chunks(2).flat_map(|p| [p[0], p[1], p[0] - p[1]]).collect()
}

/// With room for every Line.
fn whole(list: &[f64], tolerance: f64, budget: u64) -> Compared {
    straights(&Input { list: list.to_vec(), tolerance, budget }, list.len() - 3)
}

/// A list at each budget beside what its search needs.
fn budgets(list: &[f64], tolerance: f64) -> Vec<Compared> {
    let need = model(&triples(list), tolerance, u64::MAX).tested;
    let all = [0, 1, need / 2, need - 1, need, need + 1, u64::MAX];
    all.into_iter().map(|budget| whole(list, tolerance, budget)).collect()
}

/// A dip at which the recursive cut has a Line more than the fewest, a corner at which it has as many, a peak at the tolerance and
/// just beside it.
fn worked() -> Vec<Compared> {
    let dip = raised(&[0.0, 2.0, 1.0, 0.0, 2.0, 0.0, 3.0, 0.0, 4.0, 2.0]);
    let corner = raised(&[0.0, 0.0, 5.0, 0.0, 10.0, 0.0, 10.0, 5.0, 10.0, 10.0]);
    let peak = raised(&[0.0, 0.0, 1.0, 3.0, 2.0, 0.0]);
    let lines = |list: &[f64], budget: u64| model(&triples(list), 1.0, budget).ends.len();
    assert!(lines(&dip, 0) == 3 && lines(&dip, u64::MAX) == 2 && lines(&corner, 0) == 2, "what the cut has");
    let mut calls = budgets(&dip, 1.0);
    calls.extend(budgets(&corner, 1.0));
    for tolerance in [3.0, 3f64.next_up(), 3f64.next_down()] {
        calls.push(whole(&peak, tolerance, u64::MAX));
    }
    calls
}

/// Row by row: points, their count, a coordinate, the tolerance, the room.
fn refusals() -> Vec<Compared> {
    let list = raised(&[0.0, 0.0, 1.0, 3.0, 2.0, 0.0]);
    let with = |list: &[f64], tolerance: f64, room: usize| straights(&Input { list: list.to_vec(), tolerance, budget: 9 }, room);
    let far = [&list[..8], &[1_000_000f64.next_up()]].concat();
    let many = raised(&zigzag(MOST_POINTS + 1, 1.0));
    vec![
        with(&list[..8], 1.0, 6),
        with(&list, 1.0, 7),
        with(&list[..3], 1.0, 6),
        with(&[], 1.0, 6),
        with(&many, 1.0, many.len()),
        with(&far, 1.0, 6),
        with(&list, 0.0, 6),
        with(&list, f64::NAN, 6),
        with(&list, 1.0, 3),
        with(&list, 1.0, 9),
    ]
}

/// The most points: a track, and a zigzag at which each point is a Line's end.
fn long(draw: &mut Draw) -> Vec<Compared> {
    let lap = raised(&track(draw, MOST_POINTS, 1.6, 0.3));
    let zigzag = raised(&zigzag(MOST_POINTS, 1.0));
    vec![whole(&lap, 1.0, u64::MAX), whole(&lap, 1.0, 500), whole(&zigzag, 0.5, u64::MAX)]
}

pub fn records(count: usize, seed: u64) -> Vec<Record> {
    let mut draw = Draw::new(Random::new(seed));
    let fixed = [worked(), refusals(), long(&mut draw)];
    filled(fixed.iter().flatten().map(recorded).collect(), count, |_| {
        let record = recorded(&FUNCTIONS[0](&mut draw));
        (record.items <= LONG).then_some(record)
    })
}
