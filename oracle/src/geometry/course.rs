//! The functions of fitting.rs that take a course: `fit_arcs` and `optimize_path_from_array`. The first is compared with the
//! Rust into which the distance to the segment is put (document 02, §4), the second with the given one.
use super::bezier::steps_needed;
use super::calls;
use super::draw::Draw;
use super::fit::{Judged, Stands, judged, outputs, room, same};
use super::frame::{Call, Compared, Function};
use super::lent::{Lent, patterns};
use super::margins::{TO_THE_LINE, TO_THE_SEGMENT, Walk};
use super::out_and_back;
use super::simplify::{Commands, Rooms, behind, command_count, kinds, spoil, unmatch, written_commands};
use super::table::{self, Row, refusal};
use raygeo::geo::algo::fitting;
use raygeo::geo::shape::bezier::linearize_bezier_from_params;
use raygeo::geo::types::{Command, Point3D};
use raygeo_segment::geo::algo::fitting::fit_arcs;
use raygeo_segment::geo::algo::simplify::simplify_polyline_3d;
use raygeo_segment::segment;

pub const FUNCTIONS: [Function; 2] = [draw_arcs, draw_optimized];

// ---- the Rust's way through a course

/// What was made of a course so far, and where its arc trials stand.
pub struct Way {
    tolerance: f64,
    made: Vec<Command>,
    /// The steps that each command covers: none where it is kept.
    pub steps: Vec<usize>,
    stands: Stands,
    chain: Vec<Point3D>,
}

impl Way {
    fn new(tolerance: f64) -> Way {
        Way { tolerance, made: Vec::new(), steps: Vec::new(), stands: Stands::UNTRIED, chain: Vec::new() }
    }

    /// Fits the chain and empties it: thinned, and then both by the segment, or as it is, by the endless line.
    fn flush(&mut self, thinned: bool) {
        let chain = std::mem::take(&mut self.chain);
        if chain.len() < 2 {
            return;
        }
        let (points, line) = if thinned {
            (simplify_polyline_3d(&chain, self.tolerance), TO_THE_SEGMENT)
        } else {
            (chain, TO_THE_LINE)
        };
        let walk = Walk::over(&points, line, self.tolerance, 0, points.len() - 1);
        self.stands = self.stands.and(Stands { margins: walk.margins, missed: walk.missed, ..Stands::UNTRIED });
        self.made.extend(walk.commands);
        self.steps.extend(walk.steps);
    }

    /// The command stays as it is.
    fn keep(&mut self, command: &Command) {
        self.made.push(command.clone());
        self.steps.push(0);
    }

    /// Where the Rust's answer stands.
    pub fn stands(self, answer: &[Command]) -> Stands {
        if same(&self.made, answer) { self.stands } else { Stands::ASTRAY }
    }
}

/// The way of `fit_arcs`: Arcs stay, Beziers are taken in steps of a quarter of the tolerance.
pub fn way_of_arcs(data: &[Command], tolerance: f64) -> Way {
    let mut way = Way::new(tolerance);
    let mut last = Point3D::new(0.0, 0.0, 0.0);
    for command in data {
        let end = command.end_point();
        if way.chain.is_empty() && !matches!(command, Command::Move { .. }) {
            way.chain.push(last);
        }
        match command {
            Command::Line { .. } => way.chain.push(end),
            Command::Bezier { control1, control2, .. } => {
                let steps = linearize_bezier_from_params(end, *control1, *control2, last, tolerance * 0.25);
                way.chain.extend(steps.iter().map(|step| step.1));
            }
            Command::Move { .. } | Command::Arc { .. } => {
                way.flush(true);
                way.keep(command);
                if matches!(command, Command::Arc { .. }) {
                    way.chain.push(end);
                }
            }
        }
        last = end;
    }
    way.flush(true);
    way
}

/// The way of `optimize_path_from_array` where chains of Lines are fitted.
fn way_of_lines(data: &[Command], tolerance: f64) -> Way {
    let mut way = Way::new(tolerance);
    let mut last = Point3D::new(0.0, 0.0, 0.0);
    for command in data {
        let end = command.end_point();
        if matches!(command, Command::Line { .. }) {
            if way.chain.is_empty() {
                way.chain.push(last);
            }
            way.chain.push(end);
        } else {
            way.flush(false);
            way.keep(command);
            way.chain = vec![end];
        }
        last = end;
    }
    way.flush(false);
    way
}

// ---- the table

/// The most of a course, by document 01: its Moves and Arcs, its Lines, and the steps of its Beziers.
pub fn most(c: &Commands, tolerance: f64) -> f64 {
    let (mut total, mut last) = (0.0, [0.0; 3]);
    for (kind, nine) in c.kinds.iter().zip(c.numbers.chunks_exact(9)) {
        let curve = [nine, &last[..]].concat();
        total += if *kind == 3 { steps_needed(&curve, tolerance * 0.25) } else { 1.0 };
        last.copy_from_slice(&nine[..3]);
    }
    total
}

/// The rows of a course alone, with others in number order behind them.
fn rows(c: &Commands, tolerance: f64, rooms: Rooms, others: &[Row]) -> Vec<Row> {
    let mut rows = vec![
        table::not_commands(c.kinds.len(), c.numbers.len()),
        table::not_whole(rooms.numbers, 9),
        table::too_many_commands(c.kinds.len()),
        table::malformed(c.each(table::formed)),
        table::outside(c.each(table::command)),
        table::bad_tolerance(table::tolerance(tolerance)),
    ];
    rows.extend(others);
    rows
}

// ---- both sides

/// A call on a course; `rows` are what it can fall under, `extra` what it takes besides.
fn call(
    function: &'static str,
    c: &Commands,
    tolerance: f64,
    rooms: Rooms,
    rows: &[Row],
    extra: &[(&'static str, u64)],
) -> Call {
    let mut arguments = vec![
        ("tolerance", patterns(&[tolerance])),
        ("kinds", c.kinds.iter().map(|kind| *kind as u64).collect()),
        ("numbers", patterns(&c.numbers)),
        ("rooms", vec![rooms.kinds as u64, rooms.numbers as u64]),
    ];
    arguments.extend(extra.iter().map(|(name, word)| (*name, vec![*word])));
    Call {
        function,
        arguments,
        refusal: refusal(rows),
        lent: outputs(rooms, &[Lent::numbers(&c.numbers), Lent::bytes(&c.kinds)]),
    }
}

pub fn arcs_of(c: &Commands, tolerance: f64, rooms: Rooms) -> Judged {
    let most = most(c, tolerance);
    let others = [
        table::too_much(most),
        table::no_room(rooms.kinds, most as usize),
        table::no_room(rooms.numbers / 9, most as usize),
    ];
    let mut stands = Stands::UNTRIED;
    let compared = call("fit_arcs", c, tolerance, rooms, &rows(c, tolerance, rooms, &others), &[]).compare(
        |lent| unsafe {
            let (out_nums, count, out_kinds) = (lent[0].as_mut_ptr(), lent[1].as_mut_ptr(), lent[2].as_mut_ptr());
            let (nums, kinds) = (lent[3].as_mut_ptr::<f64>(), lent[4].as_mut_ptr::<u8>());
            let (n, size) = (c.kinds.len(), c.numbers.len());
            let (ok, on) = (rooms.kinds, rooms.numbers);
            calls::pz_fit_arcs(kinds, n, nums, size, tolerance, out_kinds, ok, out_nums, on, count)
        },
        |before| {
            let data = c.given();
            let answer = fit_arcs(&data, tolerance);
            stands = way_of_arcs(&data, tolerance).stands(&answer);
            written_commands(before, rooms, &answer)
        },
    );
    judged(compared, stands, rooms)
}

pub fn optimized_of(c: &Commands, tolerance: f64, fitted: bool, rooms: Rooms) -> Judged {
    let most = c.kinds.len();
    let others = [table::no_room(rooms.kinds, most), table::no_room(rooms.numbers / 9, most)];
    let (rows, extra) = (rows(c, tolerance, rooms, &others), [("use_fit_arcs", fitted as u64)]);
    let mut stands = Stands::UNTRIED;
    let compared = call("optimize_path_from_array", c, tolerance, rooms, &rows, &extra).compare(
        |lent| unsafe {
            let (out_nums, count, out_kinds) = (lent[0].as_mut_ptr(), lent[1].as_mut_ptr(), lent[2].as_mut_ptr());
            let (nums, kinds) = (lent[3].as_mut_ptr::<f64>(), lent[4].as_mut_ptr::<u8>());
            let (n, size) = (c.kinds.len(), c.numbers.len());
            let (ok, on) = (rooms.kinds, rooms.numbers);
            calls::pz_optimize_path_from_array(
                kinds, n, nums, size, tolerance, fitted, out_kinds, ok, out_nums, on, count,
            )
        },
        |before| {
            let data = c.given();
            let answer = fitting::optimize_path_from_array(&data, tolerance, fitted);
            if fitted {
                stands = way_of_lines(&data, tolerance).stands(&answer);
            }
            written_commands(before, rooms, &answer)
        },
    );
    judged(compared, stands, rooms)
}

// ---- inputs

/// The kinds of so many commands.
fn course_kinds(draw: &mut Draw, count: usize) -> Vec<u8> {
    let style = draw.edge(&[
        (0, "course: one lap, Lines"),
        (0, "course: one lap, Lines"),
        (1, "course: laps of Lines"),
        (2, "course: Lines and no Move"),
        (3, "course: a lap with Arcs"),
        (4, "course: a lap with Beziers"),
        (5, "course: a lap with both"),
        (6, "course: any kinds"),
    ]);
    if style == 6 {
        return kinds(draw, count);
    }
    let moves = draw.of(&[5, 20, 70]);
    (0..count)
        .map(|i| match style {
            1 if draw.one_in(moves) => 0,
            3 | 5 if draw.one_in(6) => 2,
            4 | 5 if draw.one_in(8) => 3,
            2 => 1,
            _ => (i > 0) as u8,
        })
        .collect()
}

/// Controls beside the thirds of the step from one end to another.
pub fn controls(draw: &mut Draw, from: &[f64], to: &[f64]) -> [f64; 6] {
    let size = draw.of(&[0.0, 0.1, 3.0]);
    let mut all = [0.0; 6];
    for (place, x) in all.iter_mut().enumerate() {
        let (axis, share) = (place % 3, if place < 3 { 1.0 / 3.0 } else { 2.0 / 3.0 });
        let middle = from[axis] + share * (to[axis] - from[axis]) + (draw.unit() - 0.5) * size;
        *x = if middle.is_nan() { 0.0 } else { middle.clamp(-1_000_000.0, 1_000_000.0) };
    }
    all
}

/// A course that can be spoilt, and a tolerance for it.
pub fn course(draw: &mut Draw) -> (Commands, f64) {
    let count = command_count(draw);
    let ends = out_and_back::points(draw, count);
    let kinds = course_kinds(draw, count);
    let (mut numbers, mut last) = (Vec::with_capacity(9 * count), vec![0.0; 3]);
    for (kind, end) in kinds.iter().zip(ends.chunks(3)) {
        numbers.extend(end);
        numbers.extend(if *kind == 3 { controls(draw, &last, end) } else { behind(draw, *kind) });
        last = end.to_vec();
    }
    let mut c = Commands { kinds, numbers };
    let tolerance = tolerance_for(draw, &c);
    while count > 0 && draw.one_in(8) {
        spoil(draw, &mut c);
    }
    if draw.one_in(30) {
        unmatch(draw, &mut c);
    }
    (c, tolerance)
}

/// How far the end of a command is from the segment between those of one before and one behind it: the tolerance at which it
/// is in doubt whether that point is kept, and whether a Line passes.
fn at_a_distance(draw: &mut Draw, c: &Commands) -> f64 {
    draw.label("tolerance at a point's distance from a segment");
    let end = |i: usize| (c.numbers[9 * i], c.numbers[9 * i + 1]);
    let last = c.numbers.len() / 9 - 1;
    let from = draw.below(last - 1);
    let to = from + 2 + draw.below((last - from - 1).min(9));
    let (p, a, b) = (end(from + 1 + draw.below(to - from - 1)), end(from), end(to));
    let chord = (b.0 - a.0, b.1 - a.1);
    let distance = segment::square(p, a, b, chord.0 * chord.0 + chord.1 * chord.1).sqrt();
    // it is a NaN for points that are refused, and for ends that are one point
    let tolerance = if distance.is_nan() { 1.0 } else { distance.clamp(0.001, 1_000.0) };
    if draw.flag() { tolerance } else { draw.near(tolerance).clamp(0.001, 1_000.0) }
}

/// A tolerance as a runner sets it, at a point's distance, any, or one at which the most is about 800.
pub fn tolerance_for(draw: &mut Draw, c: &Commands) -> f64 {
    let curves = c.kinds.iter().filter(|kind| **kind == 3).count();
    if curves > 0 && draw.one_in(3) {
        draw.label("a most of about 800");
        let rest = 800.0 - (c.kinds.len() - curves) as f64 - draw.of(&[0.0, 0.0, 0.5 * curves as f64, curves as f64]);
        // at a tolerance of 1 there are four steps a metre
        let length = (most(c, 1.0) - (c.kinds.len() - curves) as f64) / 4.0;
        let tolerance = 4.0 * length / rest.max(1.0);
        let tolerance = if tolerance.is_nan() { 1.0 } else { tolerance.clamp(0.001, 1_000.0) };
        return draw.near(tolerance).clamp(0.001, 1_000.0);
    }
    if c.numbers.len() >= 27 && draw.one_in(4) {
        return at_a_distance(draw, c);
    }
    if draw.flag() { draw.of(&[0.1, 0.5, 1.0, 2.0, 5.0]) } else { draw.tolerance() }
}

/// Draws a course and calls both sides.
pub fn draw_arcs(draw: &mut Draw) -> Compared {
    let (c, tolerance) = course(draw);
    let most = most(&c, tolerance);
    // where the most is refused, the room is not looked at
    let rooms = if most <= 800.0 { room(draw, most as usize) } else { room(draw, 900) };
    arcs_of(&c, tolerance, rooms).labelled(draw)
}

pub fn draw_optimized(draw: &mut Draw) -> Compared {
    let (c, tolerance) = course(draw);
    let fitted = draw.flag();
    let rooms = room(draw, c.kinds.len());
    optimized_of(&c, tolerance, fitted, rooms).labelled(draw)
}
