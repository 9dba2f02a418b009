//! The recorded readings of path data.
use super::draw::Draw;
use super::list::{Record, filled, record};
use super::svg::{DRAWN, ROOM, drawn, reading_of};
use crate::random::Random;

/// A drawn record has at most so many bytes.
const LONG: usize = 4_000;

/// Worked texts, right and wrong, each limit, and rooms.
fn worked() -> Vec<(String, usize)> {
    let texts = [
        "",
        "M 0 0",
        "M -0 -0.000",
        "M 0000001 0.5",
        "M 9999999.999 0",
        "M 1000000 -1000000",
        "M 1000000.001 0",
        "M 0 -1000000.001",
        "M 1 2 L 3 4 M 5 6",
        "M 0 0 C 1 2 3 4 5 6",
        "M 0.1 0.2 L 0.3 -0.007",
        "L 1 2",
        "m 1 2",
        "M1 2",
        "M 1,2",
        "M  1 2",
        " M 1 2",
        "M 1 2 ",
        "M +1 2",
        "M --1 2",
        "M 1. 2",
        "M .5 2",
        "M 12345678 2",
        "M 1.2345 2",
        "M 1e3 2",
        "M 1 2 3 4",
        "M 1",
        "M 0 0 C 1 2 3 4",
        "M 1 2 Z",
        "M 1 2\n",
    ];
    let rooms = [("", 8), ("", 7), ("M 1 2", 89), ("M 1 2", 88), ("M 1 2 M 3 4", 170), ("M 1 2 M 3 4", 169)];
    let again = |one: &str, count: usize| vec![one; count].join(" ");
    let limits = [
        again("M 1 2", 64),
        again("M 1 2", 65),
        again("M 1 2", 1) + " " + &again("L 1 2", 800),
        again("M 1 2", 1) + " " + &again("L 1 2", 799),
        again("m", 32_769),
        again("m", 32_768) + " ",
    ];
    let plain = texts.iter().chain(&DRAWN).map(|text| (text.to_string(), ROOM));
    plain.chain(rooms.map(|(text, room)| (text.to_string(), room))).chain(limits.map(|text| (text, ROOM))).collect()
}

/// The worked texts, and then drawn ones.
pub fn records(count: usize, seed: u64) -> Vec<Record> {
    let mut draw = Draw::new(Random::new(seed));
    let fixed = worked().into_iter().map(|(text, room)| record(&reading_of(text.as_bytes(), room))).collect();
    filled(fixed, count, |index| {
        let call = drawn(&mut draw, index);
        assert!(call.proved == call.given, "a difference in {}", call.function);
        let record = record(&call);
        (record.bytes.len() <= LONG).then_some(record)
    })
}
