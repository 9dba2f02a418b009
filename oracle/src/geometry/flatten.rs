//! Arcs drawn by Lines (document 02, §6), beside a plain model written from the request's words: quarter turns are taken one at a
//! time, and each is asked whether it falls strictly before the end.
use super::bezier::triple;
use super::calls::pz_flatten_arc;
use super::draw::Draw;
use super::fit::outputs;
use super::frame::{Call, Compared, Function};
use super::lent::{Lent, patterns};
use super::simplify::{Rooms, written_commands};
use super::table::{self, refusal};
use raygeo::geo::types::{Command, Point3D};

pub const FUNCTIONS: [Function; 1] = [flatten_arc];

pub const MOST: usize = 4_096;

/// A command, its start and a tolerance.
#[derive(Clone)]
pub struct Input {
    pub kind: u8,
    pub numbers: Vec<f64>,
    pub start: [f64; 3],
    pub tolerance: f64,
}

type Vector = [f64; 2];

// ---- the model

fn cross(u: Vector, w: Vector) -> f64 {
    u[0] * w[1] - u[1] * w[0]
}

fn dot(u: Vector, w: Vector) -> f64 {
    u[0] * w[0] + u[1] * w[1]
}

fn length(u: Vector) -> f64 {
    (u[0] * u[0] + u[1] * u[1]).sqrt()
}

/// "computed centre" and "points less the computed centre, in x and y".
fn vectors(a: [f64; 3], b: [f64; 3], offset: [f64; 3]) -> (Vector, Vector, Vector) {
    let centre = [a[0] + offset[0], a[1] + offset[1]];
    (centre, [a[0] - centre[0], a[1] - centre[1]], [b[0] - centre[0], b[1] - centre[1]])
}

fn quarter_turn(u: Vector, clockwise: bool) -> Vector {
    if clockwise { [u[1], -u[0]] } else { [-u[1], u[0]] }
}

/// Whether the quarter turn of v falls strictly before the end w, where v itself does: it does not where w lies beyond v by a
/// quarter turn or less.
fn falls_before(v: Vector, w: Vector, clockwise: bool) -> bool {
    let c = if clockwise { -cross(v, w) } else { cross(v, w) };
    !(c > 0.0 && dot(v, w) >= 0.0)
}

/// The vectors at which the parts from u to w end.
fn halve(u: Vector, w: Vector, radius: f64, tolerance: f64, left: u32, ends: &mut Vec<Vector>) {
    let c = dot(u, w) / (length(u) * length(w));
    if left == 0 || radius * (1.0 - ((1.0 + c) / 2.0).sqrt()) < tolerance / 4.0 {
        ends.push(w);
        return;
    }
    let sum = [u[0] + w[0], u[1] + w[1]];
    let middle = sum.map(|x| x / length(sum) * radius);
    halve(u, middle, radius, tolerance, left - 1, ends);
    halve(middle, w, radius, tolerance, left - 1, ends);
}

/// The ends of the Lines. That each number is finite is tried here, too.
pub fn model(start: [f64; 3], end: [f64; 3], offset: [f64; 3], clockwise: bool, tolerance: f64) -> Vec<[f64; 3]> {
    let (centre, first, last) = vectors(start, end, offset);
    let radius = length(first);
    let (mut vector, mut ends) = (first, Vec::new());
    for _ in 0..3 {
        if !falls_before(vector, last, clockwise) {
            break;
        }
        let next = quarter_turn(vector, clockwise);
        halve(vector, next, radius, tolerance, 10, &mut ends);
        vector = next;
    }
    halve(vector, last, radius, tolerance, 10, &mut ends);
    let n = ends.len();
    let height = |i: usize| start[2] + (end[2] - start[2]) * (i as f64 / n as f64);
    let line = |(i, v): (usize, &Vector)| [centre[0] + v[0], centre[1] + v[1], height(i + 1)];
    let mut lines: Vec<[f64; 3]> = ends.iter().enumerate().map(line).collect();
    lines[n - 1] = end;
    assert!(lines.iter().flatten().all(|x| x.is_finite()), "every number of a Line is finite: {start:?} {end:?} {offset:?}");
    lines
}

/// "no Arc, the normal is another, the offset exceeds 1,000,000 in a coordinate, either radius is below 1e-9, or the end's radius
/// differs from it by the tolerance or more".
fn not_drawable(input: &Input) -> bool {
    let (end, offset, normal) = (triple(&input.numbers, 0), triple(&input.numbers, 1), triple(&input.numbers, 2));
    let (end, offset) = ([end.x, end.y, end.z], [offset.x, offset.y, offset.z]);
    let (_, first, last) = vectors(input.start, end, offset);
    let (r, s) = (length(first), length(last));
    input.kind != 2
        || normal.x != 0.0
        || normal.y != 0.0
        || (normal.z != 1.0 && normal.z != -1.0)
        || offset.iter().any(|x| x.abs() > 1_000_000.0)
        || r < 1e-9
        || s < 1e-9
        || (s - r).abs() >= input.tolerance
}

fn refused(input: &Input, rooms: Rooms) -> u32 {
    if input.numbers.len() != 9 || !rooms.numbers.is_multiple_of(9) {
        return 1;
    }
    refusal(&[
        table::malformed(table::formed(input.kind, &input.numbers)),
        table::outside(table::command(input.kind, &input.numbers) && table::coordinates(&input.start)),
        table::bad_tolerance(table::tolerance(input.tolerance)),
        (11, not_drawable(input)),
        table::no_room(rooms.kinds, MOST),
        table::no_room(rooms.numbers / 9, MOST),
    ])
}

/// The model's Lines of an input that is not refused.
pub fn lines_of(input: &Input) -> Vec<Command> {
    let n = &input.numbers;
    let ends = model(input.start, [n[0], n[1], n[2]], [n[3], n[4], n[5]], n[8] < 0.0, input.tolerance);
    ends.iter().map(|end| Command::Line { end: Point3D::new(end[0], end[1], end[2]) }).collect()
}

pub fn flattened(input: &Input, rooms: Rooms) -> Compared {
    let Input { kind, numbers, start, tolerance } = input;
    let call = Call {
        function: "flatten_arc",
        arguments: vec![
            ("tolerance", patterns(&[*tolerance])),
            ("kinds", vec![*kind as u64]),
            ("numbers", patterns(&[&numbers[..], &start[..]].concat())),
            ("rooms", vec![rooms.kinds as u64, rooms.numbers as u64]),
        ],
        refusal: refused(input, rooms),
        lent: outputs(rooms, &[Lent::numbers(numbers)]),
    };
    let [x, y, z] = *start;
    call.compare(
        |lent| unsafe {
            let (nums, count, kinds) = (lent[0].as_mut_ptr(), lent[1].as_mut_ptr(), lent[2].as_mut_ptr());
            let (command, n) = (lent[3].as_mut_ptr::<f64>(), numbers.len());
            pz_flatten_arc(
                *kind,
                command,
                n,
                x,
                y,
                z,
                *tolerance,
                kinds,
                rooms.kinds,
                nums,
                rooms.numbers,
                count,
            )
        },
        |before| written_commands(before, rooms, &lines_of(input)),
    )
}

// ---- inputs

/// How the end is drawn, as seen from the start.
#[derive(Clone, Copy)]
enum Span {
    Quarters(usize),
    BesideQuarters(usize),
    SameRay,
    Any,
    Small,
}

const SPANS: [(Span, &str); 12] = [
    (Span::Quarters(1), "span: a quarter"),
    (Span::Quarters(2), "span: a half"),
    (Span::Quarters(3), "span: three quarters"),
    (Span::Quarters(0), "span: the end is the start"),
    (Span::BesideQuarters(1), "span: a rounding beside a quarter"),
    (Span::BesideQuarters(2), "span: a rounding beside a half"),
    (Span::BesideQuarters(3), "span: a rounding beside three quarters"),
    (Span::BesideQuarters(0), "span: a rounding beside the start"),
    (Span::SameRay, "span: on the start's ray"),
    (Span::Any, "span: any"),
    (Span::Any, "span: any"),
    (Span::Small, "span: small, or nearly whole"),
];

/// Radii of every size from 1e-9 to 1.4e6, and a start vector of that length.
fn first_vector(draw: &mut Draw) -> Vector {
    let radius = match draw.below(8) {
        0 => draw.edge(&[
            (1e-9, "radius: beside 1e-9"),
            (1e-9f64.next_down(), "radius: beside 1e-9"),
            (1.2e-9, "radius: beside 1e-9"),
            (1_400_000.0, "radius: the greatest"),
            (1_000_000.0, "radius: the greatest"),
        ]),
        1 => draw.sized(-31, -10),
        2 => draw.sized(10, 20),
        3 => 5.0 * (1 + draw.below(40)) as f64,
        _ => draw.sized(0, 9),
    };
    match draw.below(5) {
        0 => [draw.signed(radius), 0.0],
        1 => [-0.0, draw.signed(radius)],
        2 => [0.6, 0.8].map(|x| draw.signed(x * radius)),
        _ => {
            let u = unit(draw);
            u.map(|x| x * radius)
        }
    }
}

/// Any direction, by operations that every machine rounds alike.
fn unit(draw: &mut Draw) -> Vector {
    let t = draw.unit();
    let u = [(1.0 - t * t) / (1.0 + t * t), 2.0 * t / (1.0 + t * t)];
    (0..draw.below(4)).fold(u, |u, _| quarter_turn(u, false))
}

/// The vector of the end.
fn last_vector(draw: &mut Draw, first: Vector, span: Span) -> Vector {
    let quarters = |k: usize| (0..k).fold(first, |u, _| quarter_turn(u, false));
    let spun = |u: Vector| [first[0] * u[0] - first[1] * u[1], first[1] * u[0] + first[0] * u[1]];
    match span {
        Span::Quarters(k) => quarters(k),
        Span::BesideQuarters(k) => quarters(k).map(|x| draw.near(x)),
        Span::SameRay => {
            let share = 0.5 + draw.unit();
            first.map(|x| x * share)
        }
        Span::Any => {
            let u = unit(draw);
            spun(u)
        }
        Span::Small => {
            let m = draw.sized(-40, -3);
            let m = draw.signed(m);
            spun([(1.0 - m * m) / (1.0 + m * m), 2.0 * m / (1.0 + m * m)])
        }
    }
}

/// Where the centre lies: at zero, where every radius can be had, or anywhere.
fn middle(draw: &mut Draw) -> Vector {
    match draw.below(4) {
        0 | 1 => [0.0, 0.0],
        2 => [0; 2].map(|_| (draw.below(2_001) as f64 - 1_000.0) / 8.0),
        _ => [0; 2].map(|_| draw.unit() * 2_000.0 - 1_000.0),
    }
}

/// Now and then the end is off the circle: by the tolerance, by nearly as much, by a little more.
fn off_circle(draw: &mut Draw, last: Vector, tolerance: f64) -> Vector {
    if !draw.one_in(4) {
        return last;
    }
    let radius = length(last);
    let off = draw.edge(&[
        (1.0, "the end's radius off by the tolerance"),
        (1.0 - 1e-9, "the end's radius off by nearly the tolerance"),
        (1.0 + 1e-9, "the end's radius off by more than the tolerance"),
        (0.5, "the end's radius off by half the tolerance"),
    ]);
    let off = draw.signed(off * tolerance);
    last.map(|x| x * ((radius + off) / radius))
}

/// Now and then one thing is not as it has to be.
fn spoiled(draw: &mut Draw, mut input: Input) -> Input {
    match draw.below(24) {
        0 => {
            input.kind = draw.edge(&[(0, "a Move"), (1, "a Line"), (3, "a Bezier"), (4, "no kind"), (255, "no kind")]);
            if draw.flag() {
                input.numbers[3..].fill(0.0);
            }
        }
        1 => {
            let place = 6 + draw.below(3);
            input.numbers[place] = draw.edge(&[
                (0.5, "another normal"),
                (-0.0, "a normal with -0"),
                (1f64.next_down(), "another normal"),
                (f64::from_bits(1), "another normal"),
                (f64::NAN, "a number that is not finite"),
            ]);
        }
        2 => {
            let place = 3 + draw.below(3);
            input.numbers[place] = draw.edge(&[
                (1_000_000f64.next_up(), "an offset above 1,000,000"),
                (-1_000_000f64.next_up(), "an offset above 1,000,000"),
                (1_000_000.0, "an offset of 1,000,000"),
                (f64::INFINITY, "a number that is not finite"),
            ]);
        }
        3 => draw.spoil(&mut input.numbers[..3]),
        4 => draw.spoil(&mut input.start),
        5 => {
            draw.label("numbers that are not nine");
            let count = draw.of(&[0, 3, 8, 10, 18]);
            input.numbers.resize(count, 1.0);
        }
        _ => {}
    }
    input
}

/// Room for the most, and now and then for less, for more, or no whole commands.
fn rooms(draw: &mut Draw) -> Rooms {
    let full = Rooms { kinds: MOST, numbers: 9 * MOST };
    if !draw.one_in(16) {
        return full;
    }
    let (kinds, numbers) = draw.edge(&[
        ((MOST - 1, 9 * MOST), "room for 4,095 kinds"),
        ((MOST, 9 * MOST - 9), "room for 4,095 times nine numbers"),
        ((MOST, 9 * MOST - 1), "room that is not whole commands"),
        ((MOST + 3, 9 * MOST + 9), "more room than the most"),
        ((0, 0), "no room"),
    ]);
    Rooms { kinds, numbers }
}

/// A tolerance, and a height at either end.
fn drawn(draw: &mut Draw) -> Input {
    let tolerance = draw.tolerance();
    let first = first_vector(draw);
    let span = draw.edge(&SPANS);
    let last = last_vector(draw, first, span);
    let last = off_circle(draw, last, tolerance);
    let (centre, clockwise) = (middle(draw), draw.flag());
    draw.label(if clockwise { "clockwise" } else { "counter-clockwise" });
    let heights = [0; 2].map(|_| draw.unit() * 300.0 - 100.0);
    let start = [centre[0] + first[0], centre[1] + first[1], heights[0]];
    let numbers = vec![
        centre[0] + last[0],
        centre[1] + last[1],
        heights[1],
        centre[0] - start[0],
        centre[1] - start[1],
        0.0,
        0.0,
        0.0,
        if clockwise { -1.0 } else { 1.0 },
    ];
    Input { kind: 2, numbers, start, tolerance }
}

fn flatten_arc(draw: &mut Draw) -> Compared {
    let input = drawn(draw);
    let input = spoiled(draw, input);
    let rooms = rooms(draw);
    let call = flattened(&input, rooms);
    if call.given.number == 0 {
        draw.label(match call.count() {
            1 => "one Line",
            2..=4 => "2 to 4 Lines",
            5..=64 => "5 to 64 Lines",
            65..=1_024 => "65 to 1,024 Lines",
            1_025..=4_095 => "1,025 to 4,095 Lines",
            _ => "4,096 Lines",
        });
    }
    call
}
