//! The recorded askings and commits. One stands in the list only where document 01's margins hold for each lap that is fitted.
use super::draw::Draw;
use super::frame::{Compared, Outcome};
use super::laps::{Replacement, argument, carry_on, recording};
use super::lent::{Lent, patterns};
use super::list::{COUNTS, Record, filled, record};
use super::margins::Margins;
use super::session::{Commit, Step, Ticket, ask_of, commit_of, steps};
use super::simplify::Commands;
use crate::random::Random;

/// A drawn record has at most so many bytes.
const LONG: usize = 6_000;

/// Room for every file, and for every part.
const ROOM: usize = 58_920;

/// What is listed of a call: the numbers and the bytes that it writes, each with its room, and the count.
fn listed(
    function: &'static str,
    arguments: Vec<(&'static str, Vec<u64>)>,
    number: u32,
    numbers: (usize, &[f64]),
    bytes: (usize, &[u8]),
    count: usize,
) -> Compared {
    let lent = vec![
        Lent::room(numbers.0).written(&patterns(numbers.1)),
        Lent::byte_room(bytes.0, bytes.1),
        Lent::count().written(&[count as u64]),
    ];
    let outcome = Outcome { number, lent };
    Compared { function, arguments, proved: outcome.clone(), given: outcome }
}

/// An asking, and the ticket and part that it gives; nothing where its answer is not owed.
fn asking(r: &Replacement, edits: u32) -> Option<(Compared, Option<(Ticket, Vec<u8>)>)> {
    let (judged, given) = ask_of(r, edits);
    assert!(judged.call.proved == judged.call.given, "a difference in ask_lap");
    if judged.stands.is_some_and(|stands| stands.margins == Margins::Outside) {
        return None;
    }
    let arguments = vec![
        ("tolerance", patterns(&[r.tolerance])),
        ("range", vec![r.lap as u64, edits as u64]),
        argument("recorded", &r.recorded),
        argument("fitted", &r.fitted),
        ("kinds", r.new.kinds.iter().map(|kind| *kind as u64).collect()),
        ("numbers", patterns(&r.new.numbers)),
        ("rooms", vec![r.room as u64]),
    ];
    let numbers = given.as_ref().map_or(vec![], |(ticket, _)| vec![ticket.tolerance]);
    let part = given.as_ref().map_or(&[][..], |(_, part)| part);
    let count = given.as_ref().map_or(0, |(ticket, _)| ticket.count + COUNTS * ticket.next);
    let call = listed("ask_lap", arguments, judged.call.given.number, (1, &numbers), (r.room, part), count);
    Some((call, given))
}

fn commit(c: &Commit) -> Compared {
    let call = commit_of(c);
    assert!(call.proved == call.given, "a difference in commit_lap");
    let Ticket { lap, tolerance, edit, count, next } = c.ticket;
    let words = [edit as u64, count as u64, next as u64].into_iter().flat_map(u64::to_le_bytes);
    let arguments = vec![
        ("tolerance", patterns(&[tolerance])),
        ("range", vec![lap as u64, c.edits as u64]),
        argument("recorded", &c.recorded),
        argument("fitted", &c.fitted),
        ("kinds", words.chain(c.part.iter().copied()).map(|byte| byte as u64).collect()),
        ("rooms", vec![c.room as u64]),
    ];
    let stored = super::laps::first_bytes(&call.given.lent[0], call.count() as usize);
    listed("commit_lap", arguments, call.given.number, (0, &[]), (c.room, &stored), stored.len())
}

/// Lines to these places, the first a Move.
fn lines(plane: &[f64]) -> Commands {
    let kinds = (0..plane.len() / 2).map(|i| (i > 0) as u8).collect();
    let numbers = plane.chunks(2).flat_map(|p| [p[0], p[1], 0.0, 0.0, 0.0, 0.0, 0.0, 0.0, 0.0]).collect();
    Commands { kinds, numbers }
}

/// Three laps, of which the second carries on, and bodies that stand for their fits.
fn files() -> (Vec<u8>, Vec<u8>) {
    let mut second = lines(&[0.0, 0.0, 7.0, 3.0, 10.0, 3.0, 10.0, 9.0]);
    carry_on(&mut second);
    let laps = [lines(&[0.0, 0.0, 10.0, 0.0, 10.0, 10.0]), second, lines(&[1.0, 2.0])];
    (recording(&laps), recording(&[lines(&[3.0, 4.0]), lines(&[9.0, 8.0, 7.0, 6.0]), lines(&[1.0, 1.0, 2.0, 2.0])]))
}

fn replacement(lap: usize, room: usize) -> Replacement {
    let (recorded, fitted) = files();
    Replacement { recorded, fitted, lap, new: lines(&[3.0, 4.0, 4.0, 3.0, 5.0, 0.0]), tolerance: 0.3, room }
}

/// Each lap of three asked for, laps that there are not, buffers at the most and one byte below it, a lap without its Move, and every
/// ticket committed, once more, at other edit numbers, and in outputs exactly full and one byte short.
fn worked() -> Vec<Compared> {
    let mut calls = Vec::new();
    let asked = [(1, ROOM), (2, ROOM), (3, ROOM), (0, ROOM), (4, ROOM), (1, 6 * 73), (1, 6 * 73 - 1), (3, 3 * 73), (3, 3 * 73 - 1)];
    for (lap, room) in asked {
        let mut carried = replacement(lap, room);
        carry_on(&mut carried.new);
        for r in [replacement(lap, room), carried] {
            let (call, given) = asking(&r, 7).expect("within the margins");
            calls.push(call);
            let Some((ticket, part)) = given else { continue };
            let c = Commit { ticket, edits: 7, recorded: r.recorded, fitted: r.fitted, part, room: ROOM };
            let full = commit_of(&c).count() as usize;
            calls.extend([ROOM, full, full - 1].map(|room| commit(&Commit { room, ..c.clone() })));
            calls.extend([8, 6].map(|edits| commit(&Commit { edits, ..c.clone() })));
        }
    }
    calls
}

/// A ticket whose fields are others, and a part whose bytes are: each row of a commit, in order.
fn forged() -> Vec<Compared> {
    let r = replacement(1, ROOM);
    let (ticket, part) = asking(&r, 0).expect("within the margins").1.expect("a ticket");
    let whole = Commit { ticket, edits: 0, recorded: r.recorded, fitted: r.fitted, part, room: ROOM };
    let with = |change: &dyn Fn(&mut Commit)| {
        let mut c = whole.clone();
        change(&mut c);
        commit(&c)
    };
    let at = |edits: u32| {
        with(&|c| {
            c.edits = edits;
            c.ticket.edit = edits;
        })
    };
    let counts = |count: usize, next: usize| with(&|c| (c.ticket.count, c.ticket.next) = (count, next));
    let kind = |place: usize, kind: u8| with(&|c| c.part[73 * place] = kind);
    let number = |place: usize, x: f64| with(&|c| c.part[place..place + 8].copy_from_slice(&x.to_le_bytes()));
    let (own, next) = (ticket.count, ticket.next);
    let mut calls = vec![at(999_999), at(1_000_000), at(1_000_001), at(u32::MAX)];
    calls.extend([(0, own + next), (own + next, 0), (own + 1, next), (own, next - 1), (usize::MAX, own + next + 1)].map(|(a, b)| counts(a, b)));
    calls.extend([0, 2, 3, 4, 64, usize::MAX].map(|lap| with(&|c| c.ticket.lap = lap)));
    calls.push(with(&|c| {
        // lap 0 of a file whose first lap lacks its Move: 4, since what follows lap 0 is no next lap
        (c.ticket.lap, c.ticket.next, c.recorded[32]) = (0, 0, 1);
        c.part.truncate(73 * own);
    }));
    calls.push(with(&|c| {
        // lap 0 by a part without a Move in front: 4, which comes before 7
        (c.ticket.lap, c.ticket.next, c.part[0]) = (0, 0, 1);
        c.part.truncate(73 * own);
    }));
    calls.extend([(0, 1), (1, 0), (1, 3), (1, 4), (own, 0), (own, 3), (own, 2)].map(|(place, new)| kind(place, new)));
    calls.extend([f64::NAN, f64::INFINITY, 1e300, -0.0].map(|x| number(73 + 1, x)));
    calls.extend([1 + 24, 73 + 1 + 64, 73 * own + 1 + 16].map(|place| number(place, f64::NEG_INFINITY)));
    calls.extend([0.0, 0.001, 1_000.0, 1_000.5, f64::NAN].map(|x| with(&|c| c.ticket.tolerance = x)));
    calls.extend([0, 1, 72, 73].map(|bytes| with(&|c| c.part.truncate(bytes))));
    calls.push(with(&|c| c.part = c.part[..73].repeat(801)));
    calls.extend([3, 7, 8].map(|bytes| with(&|c| c.recorded.truncate(bytes))));
    calls.push(with(&|c| c.fitted.truncate(7)));
    calls.extend([0, 4, 8, 12, 32].map(|place| with(&|c| c.recorded[place] ^= 1)));
    calls.extend([0, 4, 8, 12, 32].map(|place| with(&|c| c.fitted[place] ^= 1)));
    calls
}

/// Commits at the most of a file: 800 commands, and one above.
fn largest() -> Vec<Compared> {
    let recorded = recording(&[lines(&[1.0, 2.0]), lines(&[3.0, 4.0])]);
    let fitted = recording(&[lines(&[1.0, 2.0]), lines(&[5.0; 1_594])]);
    let part = |count: usize| super::laps::body(&lines(&vec![5.0; 2 * count]));
    let ticket = |count: usize| Ticket { lap: 1, tolerance: 1.0, edit: 0, count, next: 0 };
    let commits = [3, 4].map(|count| Commit {
        ticket: ticket(count),
        edits: 0,
        recorded: recorded.clone(),
        fitted: fitted.clone(),
        part: part(count),
        room: ROOM,
    });
    commits.iter().map(commit).collect()
}

/// The worked calls, the forged ones, the largest, and then calls of drawn sessions. One that is long, or whose answer is not owed, is
/// left out.
pub fn records(count: usize, seed: u64) -> Vec<Record> {
    let mut draw = Draw::new(Random::new(seed));
    let fixed = [worked(), forged(), largest()];
    let mut left: Vec<Record> = Vec::new();
    filled(fixed.iter().flatten().map(record).collect(), count, |_| {
        while left.is_empty() {
            let calls = steps(&mut draw).into_iter().filter_map(|step| match step {
                Step::Ask(r, edits) => asking(&r, edits).map(|asked| asked.0),
                Step::Commit(c) => Some(commit(&c)),
            });
            left = calls.map(|call| record(&call)).filter(|record| record.bytes.len() <= LONG).collect();
            draw.labels();
        }
        left.pop()
    })
}
