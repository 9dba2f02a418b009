//! The functions of simplify.rs.
use super::bezier::{items, pairs, triple, words_of_pairs, words_of_triples};
use super::calls::{pz_simplify_data, pz_simplify_polyline, pz_simplify_polyline_3d};
use super::draw::Draw;
use super::frame::{Call, Compared, Function, Outcome};
use super::lent::{Lent, patterns};
use super::shapes::{self, tolerance_for};
use super::table::{self, refusal};
use raygeo::geo::algo::simplify;
use raygeo::geo::types::{Command, Point3D};

pub const FUNCTIONS: [Function; 3] = [simplify_polyline, simplify_polyline_3d, simplify_data];

// ---- points

/// All points of a list of triples.
pub fn triples(numbers: &[f64]) -> Vec<Point3D> {
    (0..numbers.len() / 3).map(|i| triple(numbers, i)).collect()
}

/// Now and then part of a point behind the others.
pub fn lengthen(draw: &mut Draw, list: &mut Vec<f64>, width: usize) {
    if draw.one_in(25) {
        draw.label("a slice that is not whole points");
        let part = 1 + draw.below(width - 1);
        list.extend((0..part).map(|_| 1.0));
    }
}

fn simplify_polyline(draw: &mut Draw) -> Compared {
    let count = draw.list_count();
    let mut list = shapes::points(draw, count);
    lengthen(draw, &mut list, 2);
    let tolerance = tolerance_for(draw, &list, 2);
    pairs_of(&list, tolerance, draw.room(2, count))
}

fn simplify_polyline_3d(draw: &mut Draw) -> Compared {
    let count = draw.list_count();
    let plane = shapes::points(draw, count);
    let mut list = shapes::raised(&plane, draw);
    if draw.one_in(8) {
        draw.spoil(&mut list);
    }
    lengthen(draw, &mut list, 3);
    let tolerance = tolerance_for(draw, &list, 3);
    triples_of(&list, tolerance, draw.room(3, count))
}

/// A call on points of `width` numbers each. The list is lent too, and must stay as it is.
fn on_points(function: &'static str, list: &[f64], width: usize, tolerance: f64, room: usize) -> Call {
    Call {
        function,
        arguments: vec![("tolerance", patterns(&[tolerance])), ("points", patterns(list)), ("room", vec![room as u64])],
        refusal: refusal(&[
            table::not_whole(list.len(), width),
            table::not_whole(room, width),
            table::too_many_points(list.len() / width),
            table::outside(table::coordinates(list)),
            table::bad_tolerance(table::tolerance(tolerance)),
            table::no_room(room, list.len()),
        ]),
        lent: vec![Lent::room(room), Lent::count(), Lent::numbers(list)],
    }
}

/// What two calls leave, one after the other, where the first is accepted.
fn joined(first: Outcome, second: Outcome) -> Outcome {
    Outcome { number: second.number, lent: [first.lent, second.lent].concat() }
}

/// The points that a call gave, `width` numbers each, as they were written.
pub fn kept(call: &Compared, width: usize) -> Vec<f64> {
    let size = width * call.count() as usize;
    call.proved.lent[0].words()[..size].iter().map(|word| f64::from_bits(*word)).collect()
}

/// An accepted call, and behind it the same on the points that it gave, lent as it wrote them: "they expect the points
/// they saw" (document 02, §1). Of both the memory is compared.
fn and_again(first: Compared, width: usize, thin: impl FnOnce(&[f64], usize) -> Compared) -> Compared {
    if first.given.number != 0 || first.proved != first.given {
        return first;
    }
    let kept = kept(&first, width);
    let second = thin(&kept, kept.len());
    Compared {
        function: first.function,
        arguments: first.arguments,
        proved: joined(first.proved, second.proved),
        given: joined(first.given, second.given),
    }
}

pub fn pairs_of(list: &[f64], tolerance: f64, room: usize) -> Compared {
    let thin = |list: &[f64], room: usize| thin_pairs(list, tolerance, room);
    and_again(thin(list, room), 2, thin)
}

pub fn triples_of(list: &[f64], tolerance: f64, room: usize) -> Compared {
    let thin = |list: &[f64], room: usize| thin_triples(list, tolerance, room);
    and_again(thin(list, room), 3, thin)
}

fn thin_pairs(list: &[f64], tolerance: f64, room: usize) -> Compared {
    on_points("simplify_polyline", list, 2, tolerance, room).compare(
        |lent| unsafe {
            let (out, count, points) = (lent[0].as_mut_ptr(), lent[1].as_mut_ptr(), lent[2].as_mut_ptr());
            pz_simplify_polyline(points, list.len(), tolerance, out, room, count)
        },
        |before| {
            let mut left = items(before, &words_of_pairs(&simplify::simplify_polyline(&pairs(list), tolerance)), 2);
            left.push(before[2].clone());
            left
        },
    )
}

fn thin_triples(list: &[f64], tolerance: f64, room: usize) -> Compared {
    on_points("simplify_polyline_3d", list, 3, tolerance, room).compare(
        |lent| unsafe {
            let (out, count, points) = (lent[0].as_mut_ptr(), lent[1].as_mut_ptr(), lent[2].as_mut_ptr());
            pz_simplify_polyline_3d(points, list.len(), tolerance, out, room, count)
        },
        |before| {
            let mut left =
                items(before, &words_of_triples(&simplify::simplify_polyline_3d(&triples(list), tolerance)), 3);
            left.push(before[2].clone());
            left
        },
    )
}

// ---- commands

/// Commands as they are lent.
#[derive(Clone)]
pub struct Commands {
    pub kinds: Vec<u8>,
    pub numbers: Vec<f64>,
}

/// The room of both outputs.
#[derive(Clone, Copy)]
pub struct Rooms {
    pub kinds: usize,
    pub numbers: usize,
}

fn command(kind: u8, numbers: &[f64]) -> Command {
    let (end, second, third) = (triple(numbers, 0), triple(numbers, 1), triple(numbers, 2));
    match kind {
        0 => Command::Move { end },
        1 => Command::Line { end },
        2 => Command::Arc { end, center_offset: second, normal: third },
        _ => Command::Bezier { end, control1: second, control2: third },
    }
}

/// The kind of a command and its three points.
pub fn parts(command: &Command) -> (u8, [Point3D; 3]) {
    let none = Point3D::new(0.0, 0.0, 0.0);
    match command {
        Command::Move { end } => (0, [*end, none, none]),
        Command::Line { end } => (1, [*end, none, none]),
        Command::Arc { end, center_offset, normal } => (2, [*end, *center_offset, *normal]),
        Command::Bezier { end, control1, control2 } => (3, [*end, *control1, *control2]),
    }
}

impl Commands {
    /// The commands, where there are nine numbers for each.
    pub fn given(&self) -> Vec<Command> {
        self.kinds.iter().zip(self.numbers.chunks(9)).map(|(kind, nine)| command(*kind, nine)).collect()
    }

    pub fn each(&self, holds: fn(u8, &[f64]) -> bool) -> bool {
        self.kinds.iter().zip(self.numbers.chunks_exact(9)).all(|(kind, nine)| holds(*kind, nine))
    }
}

/// What stands in the outputs for commands, in their count, and in what is lent behind them, once these are written.
pub fn written_commands(before: &[Lent], rooms: Rooms, commands: &[Command]) -> Vec<Lent> {
    let all: Vec<_> = commands.iter().map(parts).collect();
    let kinds: Vec<u8> = all.iter().map(|part| part.0).collect();
    let words: Vec<u64> = all.iter().flat_map(|part| words_of_triples(&part.1)).collect();
    let mut left = items(before, &words, 9);
    left.push(Lent::byte_room(rooms.kinds, &kinds));
    left.extend_from_slice(&before[3..]);
    left
}

pub fn data_of(c: &Commands, tolerance: f64, rooms: Rooms) -> Compared {
    let count = c.kinds.len();
    let call = Call {
        function: "simplify_data",
        arguments: vec![
            ("tolerance", patterns(&[tolerance])),
            ("kinds", c.kinds.iter().map(|kind| *kind as u64).collect()),
            ("numbers", patterns(&c.numbers)),
            ("rooms", vec![rooms.kinds as u64, rooms.numbers as u64]),
        ],
        refusal: refusal(&[
            table::not_commands(count, c.numbers.len()),
            table::not_whole(rooms.numbers, 9),
            table::too_many_commands(count),
            table::malformed(c.each(table::formed)),
            table::outside(c.each(table::command)),
            table::bad_tolerance(table::tolerance(tolerance)),
            table::no_room(rooms.kinds, count),
            table::no_room(rooms.numbers, 9 * count),
        ]),
        lent: vec![
            Lent::room(rooms.numbers),
            Lent::count(),
            Lent::byte_room(rooms.kinds, &[]),
            Lent::numbers(&c.numbers),
            Lent::bytes(&c.kinds),
        ],
    };
    call.compare(
        |lent| unsafe {
            let (out_nums, count, out_kinds) = (lent[0].as_mut_ptr(), lent[1].as_mut_ptr(), lent[2].as_mut_ptr());
            let (nums, kinds) = (lent[3].as_mut_ptr::<f64>(), lent[4].as_mut_ptr::<u8>());
            let (n, size) = (c.kinds.len(), c.numbers.len());
            pz_simplify_data(kinds, n, nums, size, tolerance, out_kinds, rooms.kinds, out_nums, rooms.numbers, count)
        },
        |before| written_commands(before, rooms, &simplify::simplify_data(&c.given(), tolerance)),
    )
}

pub fn command_count(draw: &mut Draw) -> usize {
    match draw.below(30) {
        0 => draw.edge(&[(799, "799 commands"), (800, "800 commands"), (801, "801 commands")]),
        1 => draw.below(801),
        2..5 => draw.edge(&[(0, "no command"), (1, "one command"), (2, "two commands")]),
        5..10 => draw.below(80),
        _ => 3 + draw.below(9),
    }
}

/// Which of the commands are Moves, once in so many, and the kinds of the others.
pub fn kinds(draw: &mut Draw, count: usize) -> Vec<u8> {
    let moves = draw.edge(&[
        (1, "all Moves"),
        (2, "many Moves"),
        (3, "many Moves"),
        (10, "some Moves"),
        (40, "some Moves"),
        (usize::MAX, "no Moves"),
    ]);
    let lines = draw.flag();
    (0..count)
        .map(|_| {
            if draw.one_in(moves) {
                0
            } else if lines {
                1
            } else {
                1 + draw.below(3) as u8
            }
        })
        .collect()
}

/// The six numbers behind a command's end. Offsets and normals are finite, and nothing more is asked of them.
pub fn behind(draw: &mut Draw, kind: u8) -> [f64; 6] {
    match kind {
        2 => [0; 6].map(|_| {
            let x = draw.sized(-1074, 1023);
            draw.of(&[-0.0, 1.0, x, -x])
        }),
        3 => [0; 6].map(|_| draw.of(&[0.0, -0.0, 1_000_000.0, -3.5])),
        _ => [0.0; 6],
    }
}

/// Puts something wrong into one command.
pub fn spoil(draw: &mut Draw, c: &mut Commands) {
    let i = draw.below(c.kinds.len());
    let place = 9 * i + 3 + draw.below(6);
    match draw.below(5) {
        0 => {
            draw.label("an unknown kind");
            c.kinds[i] = draw.of(&[4, 5, 128, 255]);
        }
        1 => {
            draw.label("a used or unused number not +0");
            c.numbers[place] = draw.of(&[-0.0, f64::from_bits(1), 1.0, f64::NAN]);
        }
        2 => {
            draw.label("an offset, normal or control past its limit");
            c.numbers[place] = draw.of(&[f64::INFINITY, f64::NAN, 1_000_000f64.next_up(), f64::MAX]);
        }
        3 => {
            draw.label("an end past the limit");
            c.numbers[9 * i + draw.below(3)] = draw.of(&[1_000_000f64.next_up(), -1e7, f64::NAN, f64::NEG_INFINITY]);
        }
        _ => {
            draw.label("an end at the limit");
            c.numbers[9 * i + draw.below(3)] = draw.of(&[1_000_000.0, -1_000_000.0]);
        }
    }
}

/// Kinds or numbers too many or too few.
pub fn unmatch(draw: &mut Draw, c: &mut Commands) {
    draw.label("kinds and numbers that do not match");
    match draw.below(4) {
        0 => c.kinds.push(1),
        1 => c.numbers.truncate(c.numbers.len().saturating_sub(9)),
        2 => c.numbers.push(0.0),
        _ => c.numbers.extend([0.0; 9]),
    }
}

fn commands(draw: &mut Draw) -> Commands {
    let count = command_count(draw);
    let plane = shapes::points(draw, count);
    let ends = shapes::raised(&plane, draw);
    let kinds = kinds(draw, count);
    let mut numbers = Vec::with_capacity(9 * count);
    for (kind, end) in kinds.iter().zip(ends.chunks(3)) {
        numbers.extend(end);
        numbers.extend(behind(draw, *kind));
    }
    let mut c = Commands { kinds, numbers };
    while count > 0 && draw.one_in(5) {
        spoil(draw, &mut c);
    }
    if draw.one_in(25) {
        unmatch(draw, &mut c);
    }
    c
}

pub fn rooms(draw: &mut Draw, count: usize) -> Rooms {
    let numbers = draw.room(9, count);
    let kinds = match draw.below(10) {
        0 => draw.labelled("room one kind short", count.saturating_sub(1)),
        1 => draw.labelled("room for more kinds", 2 * count + 1),
        2 => draw.labelled("no room for kinds", 0),
        _ => count,
    };
    Rooms { kinds, numbers }
}

fn simplify_data(draw: &mut Draw) -> Compared {
    let c = commands(draw);
    let tolerance = tolerance_for(draw, &c.numbers, 9);
    data_of(&c, tolerance, rooms(draw, c.kinds.len()))
}
