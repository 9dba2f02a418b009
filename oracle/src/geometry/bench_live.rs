//! The time of a point fed to the live thinner: the proved function beside the driver's model, which does the same over the
//! given Rust's deviation and checks the same numbers. Both are lent the same state, which each copies before the call, so that
//! every call meets as many held points.
use super::bench::{Row, table};
use super::calls::pz_live_feed;
use super::draw::Draw;
use super::live::{SLOTS, State, Triple};
use super::shapes::{raised, track};
use crate::random::Random;
use std::hint::black_box;

/// A state that holds so many points of a track after its anchor, and the point to feed.
fn held(points: usize, tolerance: f64) -> (State, Triple) {
    let mut draw = Draw::new(Random::new(1));
    let plane = track(&mut draw, SLOTS + 1, 4.0, 1.0);
    let list = raised(&plane, &mut draw);
    let mut s = State::new(tolerance);
    s.count = points + 1;
    s.points[..3 * s.count].copy_from_slice(&list[..3 * s.count]);
    let next = 3 * s.count;
    (s, [list[next], list[next + 1], list[next + 2]])
}

fn feed(name: &str, points: usize, tolerance: f64) -> Row<'static> {
    let (s, p) = held(points, tolerance);
    let (mut ours, mut theirs, before) = (s.clone(), s.clone(), s);
    let again = before.clone();
    Row {
        name: format!("live_feed             {points} held, {name}"),
        given: Box::new(move || {
            theirs.clone_from(&again);
            let refused = black_box(&theirs).refusal(black_box(&p));
            assert_eq!(refused, 0);
            theirs.feed(black_box(p)).is_some() as usize
        }),
        proved: Box::new(move || {
            ours.clone_from(&before);
            let (mut end, mut handed) = ([0.0; 3], 0);
            // SAFETY: the lengths are those of the header
            unsafe {
                pz_live_feed(
                    ours.tolerance,
                    ours.points.as_mut_ptr(),
                    &mut ours.count,
                    ours.closed,
                    p.as_ptr(),
                    end.as_mut_ptr(),
                    &mut handed,
                )
            };
            handed
        }),
    }
}

/// Prints the table, and answers whether both sides handed out as many ends.
pub fn run() -> bool {
    let rows = vec![
        feed("the line goes on", 1, 1_000.0),
        feed("cut", 1, 0.001),
        feed("the line goes on", 63, 1_000.0),
        feed("cut", 63, 0.001),
        feed("the slots are full", 64, 1_000.0),
    ];
    table("ends", rows)
}
