//! The last part of fitting.rs: the fits of points into Lines and Arcs.
//!
//! Document 01 owes the Rust's answer where its margins hold in each arc trial. Elsewhere the answer is left open: what
//! is compared there is that the call is accepted and changes its outputs only as far as it says that it wrote, and that
//! document 02's law of worst steps holds of them.
use super::bends;
use super::bezier::words_of_triples;
use super::calls::{pz_fit_points_recursive, pz_fit_points_with_primitives};
use super::circle::{self, drawn, range, rows};
use super::draw::Draw;
use super::frame::{Call, Compared, Function};
use super::lent::{Lent, patterns};
use super::margins::{MARGINS, Margins, TO_THE_LINE, Walk};
use super::shapes::tolerance_for;
use super::simplify::{Rooms, parts, rooms, triples, written_commands};
use super::table::{self, refusal};
use super::worst::is_law_kept;
use raygeo::geo::algo::fitting;
use raygeo::geo::types::{Command, Point, Point3D};

/// All functions of fitting.rs that take points.
pub const FUNCTIONS: [Function; 8] = {
    let [a, b, c, d, e, f] = circle::FUNCTIONS;
    [a, b, c, d, e, f, fit_points_recursive, fit_points_with_primitives]
};

/// Where the Rust's fit stands to the margins, and which of them do not hold.
#[derive(Clone, Copy)]
pub struct Stands {
    pub margins: Margins,
    pub missed: [bool; 5],
    /// Whether the walk that measured came to the Rust's answer.
    pub followed: bool,
    /// Whether the Rust's own numbers tell the worst step of each Arc.
    pub told: bool,
}

impl Stands {
    /// Of a fit with no arc trial.
    pub const UNTRIED: Stands = Stands { margins: Margins::Untried, missed: [false; 5], followed: true, told: true };

    /// A walk that goes another way than the Rust measures other trials, so then the Rust's answer is owed without
    /// condition.
    pub const ASTRAY: Stands = Stands { margins: Margins::All, missed: [false; 5], followed: false, told: true };

    /// Of two fits.
    pub fn and(self, other: Stands) -> Stands {
        let missed = [0, 1, 2, 3, 4].map(|i| self.missed[i] || other.missed[i]);
        let (followed, told) = (self.followed && other.followed, self.told && other.told);
        Stands { margins: self.margins.and(other.margins), missed, followed, told }
    }
}

/// A compared call, and where it stands to the margins; nothing where it was refused.
pub struct Judged {
    pub call: Compared,
    pub stands: Option<Stands>,
    /// Whether the answers differ where that is open.
    pub open: bool,
}

impl Judged {
    /// Leaves its labels with the input's.
    pub fn labelled(self, draw: &mut Draw) -> Compared {
        self.labels().into_iter().for_each(|label| draw.label(label));
        self.call
    }

    pub fn labels(&self) -> Vec<&'static str> {
        let Some(stands) = self.stands else { return Vec::new() };
        let differs = self.open.then_some("outside the margins, and another answer");
        let astray = (!stands.followed).then_some("the walk does not follow the Rust");
        let missed = (0..5).filter(|i| stands.missed[*i]).map(|i| MARGINS[i]);
        let listed = self.call.function.starts_with("fit_points");
        let worst = (listed && !stands.told).then_some("worst steps: not by the Rust's own numbers alone");
        [stands.margins.label()].into_iter().chain(differs).chain(astray).chain(missed).chain(worst).collect()
    }
}

/// Whether two lists of commands have the same bits.
pub fn same(a: &[Command], b: &[Command]) -> bool {
    let words = |list: &[Command]| -> Vec<(u8, Vec<u64>)> {
        list.iter().map(parts).map(|(kind, points)| (kind, words_of_triples(&points))).collect()
    };
    words(a) == words(b)
}

/// Where the Rust's fit of a range stands, whose answer is this.
pub fn stands(points: &[Point3D], tolerance: f64, start: usize, end: usize, answer: &[Command]) -> Stands {
    let walk = Walk::over(points, TO_THE_LINE, tolerance, start, end);
    if !same(&walk.commands, answer) {
        return Stands::ASTRAY;
    }
    Stands { margins: walk.margins, missed: walk.missed, followed: true, told: walk.told }
}

/// Puts the two sides together. Where the margins do not hold and the answers differ, what is expected is what the proved
/// function says that it wrote, and behind that all as it was.
pub fn judged(mut call: Compared, stands: Stands, rooms: Rooms) -> Judged {
    if call.given.number != 0 {
        return Judged { call, stands: None, open: false };
    }
    let open = stands.margins == Margins::Outside && call.proved != call.given;
    if open {
        let count = call.proved.lent[1].words()[0];
        let written = (count as usize).min(rooms.kinds).min(rooms.numbers / 9);
        let kinds: Vec<u8> =
            call.proved.lent[2].words().iter().flat_map(|word| word.to_le_bytes()).take(written).collect();
        let left = &mut call.given.lent;
        left[0] = Lent::room(rooms.numbers).written(&call.proved.lent[0].words()[..9 * written]);
        left[1] = left[1].written(&[count]);
        left[2] = Lent::byte_room(rooms.kinds, &kinds);
        // the ranges are twice the pieces less one, whatever the pieces are; a course tells none
        if call.function == "fit_points_with_primitives" {
            left[5] = left[5].written(&[(2 * count).saturating_sub(1)]);
        }
    }
    Judged { call, stands: Some(stands), open }
}

/// The commands and the list that a call left, so far as it says that it wrote them.
fn wrote(call: &Compared, places: usize) -> (Vec<(u8, Vec<f64>)>, Vec<u32>) {
    let [numbers, count, kinds, _, list] = [0, 1, 2, 3, 4].map(|i| call.proved.lent[i].words());
    let bytes = |words: &[u64]| -> Vec<u8> { words.iter().flat_map(|word| word.to_le_bytes()).collect() };
    let written = (count[0] as usize).min(numbers.len() / 9).min(places);
    let nine = |i: usize| numbers[9 * i..9 * i + 9].iter().map(|word| f64::from_bits(*word)).collect();
    let commands = bytes(kinds).iter().take(written).enumerate().map(|(i, kind)| (*kind, nine(i))).collect();
    let four = |n: &[u8]| u32::from_le_bytes(n.try_into().expect("four bytes"));
    (commands, bytes(list).chunks(4).take(written).map(four).collect())
}

/// Puts the worst steps in where the answer is open: there the law is looked at on what the proved function left.
fn with_worst(mut judged: Judged, points: &[Point3D], range: [usize; 2], places: usize) -> Judged {
    if judged.open {
        let (commands, list) = wrote(&judged.call, places);
        if is_law_kept(points, range, &commands, &list) {
            judged.call.given.lent[4] = Lent::list_room(places, &list);
        }
    }
    judged
}

/// Memory for commands, their count, and what is lent to be read.
pub fn outputs(rooms: Rooms, read: &[Lent]) -> Vec<Lent> {
    let mut lent = vec![Lent::room(rooms.numbers), Lent::count(), Lent::byte_room(rooms.kinds, &[])];
    lent.extend_from_slice(read);
    lent
}

/// The deviation that the Rust measures in a trial round a fitted centre.
pub fn deviation_round(points: &[Point3D], centre: Point) -> f64 {
    let moved = fitting::project_circle_center_to_bisector(points[0], points[points.len() - 1], centre);
    let radius = Point::new(points[0].x, points[0].y).distance(moved);
    fitting::get_polyline_arc_deviation(points, moved, radius)
}

/// A tolerance, now and then about an arc's deviation.
fn tolerance_of(draw: &mut Draw, list: &[f64]) -> f64 {
    let points = triples(list);
    let fitted = match draw.below(6) {
        0 => fitting::fit_circle_to_points_3d(&points).map(|(centre, _, _)| centre),
        1 if points.len() == 3 => fitting::fit_circle_to_3_points(points[0], points[1], points[2]).map(|fit| fit.0),
        _ => None,
    };
    let Some(centre) = fitted else { return tolerance_for(draw, list, 3) };
    draw.label("tolerance about an arc's deviation");
    let deviation = deviation_round(&points, centre);
    let off = draw.of(&[0.0, 5e-10, 1.1e-9, 2e-9, 1e-8, 1e-7, 1e-6, 1e-5, 1e-4, 0.1]);
    let tolerance = deviation + draw.signed(off);
    // it is a NaN for points that are refused
    if tolerance.is_nan() { 1.0 } else { tolerance.clamp(0.001, 1_000.0) }
}

/// The room of both outputs, most often just the most.
pub fn room(draw: &mut Draw, most: usize) -> Rooms {
    if draw.one_in(3) { rooms(draw, most) } else { Rooms { kinds: most, numbers: 9 * most } }
}

/// The room of the list of worst steps, most often just the most.
fn places(draw: &mut Draw, most: usize) -> usize {
    match draw.below(24) {
        0 => draw.labelled("room one worst step short", most.saturating_sub(1)),
        1 => draw.labelled("room for more worst steps", 2 * most + 1),
        2 => draw.labelled("no room for worst steps", 0),
        _ => most,
    }
}

/// How many commands a range could give.
fn most([start, end]: [usize; 2]) -> usize {
    end.saturating_sub(start)
}

fn fit_points_recursive(draw: &mut Draw) -> Compared {
    let list = drawn(draw);
    let tolerance = tolerance_of(draw, &list);
    let range = range(draw, list.len() / 3);
    // where the range is refused, the room is not looked at
    let most = most(range).min(2_100);
    let rooms = room(draw, most);
    let places = places(draw, most);
    recursive_of(&list, tolerance, range, rooms, places).labelled(draw)
}

fn fit_points_with_primitives(draw: &mut Draw) -> Compared {
    let list = drawn(draw);
    let tolerance = tolerance_of(draw, &list);
    let most = (list.len() / 3).saturating_sub(1);
    let rooms = room(draw, most);
    let places = places(draw, most);
    primitives_of(&list, tolerance, rooms, places).labelled(draw)
}

/// Recordings as a watch makes them, at tolerances as a runner sets them, and nothing put in on purpose: how often the
/// margins hold there.
pub fn recorded(draw: &mut Draw) -> Compared {
    let count = 30 + draw.below(2_019);
    let plane = bends::recording(draw, count);
    let list: Vec<f64> = plane.chunks(2).flat_map(|p| [p[0], p[1], 0.0]).collect();
    let tolerance =
        draw.edge(&[(0.5, "tolerance 0.5"), (1.0, "tolerance 1"), (2.0, "tolerance 2"), (5.0, "tolerance 5")]);
    let rooms = Rooms { kinds: count - 1, numbers: 9 * (count - 1) };
    primitives_of(&list, tolerance, rooms, count - 1).labelled(draw)
}

/// A call on the range of a list.
fn call_of(
    function: &'static str,
    list: &[f64],
    tolerance: f64,
    range: [usize; 2],
    rooms: Rooms,
    places: usize,
) -> Call {
    let mut rows = rows(
        list,
        &[
            table::bad_tolerance(table::tolerance(tolerance)),
            table::bad_range(range[0], range[1], list.len() / 3),
            table::no_room(rooms.kinds, most(range)),
            table::no_room(rooms.numbers / 9, most(range)),
            table::no_room(places, most(range)),
        ],
    );
    rows.insert(0, table::not_whole(rooms.numbers, 9));
    Call {
        function,
        arguments: vec![
            ("tolerance", patterns(&[tolerance])),
            ("range", range.map(|index| index as u64).to_vec()),
            ("points", patterns(list)),
            ("rooms", vec![rooms.kinds as u64, rooms.numbers as u64, places as u64]),
        ],
        refusal: refusal(&rows),
        lent: outputs(rooms, &[Lent::numbers(list), Lent::list_room(places, &[])]),
    }
}

pub fn recursive_of(list: &[f64], tolerance: f64, range: [usize; 2], rooms: Rooms, places: usize) -> Judged {
    let points = triples(list);
    let [start, end] = range;
    let mut where_it_stands = Stands::UNTRIED;
    let compared = call_of("fit_points_recursive", list, tolerance, range, rooms, places).compare(
        |lent| unsafe {
            let (nums, count, kinds) = (lent[0].as_mut_ptr(), lent[1].as_mut_ptr(), lent[2].as_mut_ptr());
            let (points, n, worst) = (lent[3].as_mut_ptr::<f64>(), list.len(), lent[4].as_mut_ptr());
            let (ks, xs) = (rooms.kinds, rooms.numbers);
            pz_fit_points_recursive(points, n, tolerance, start, end, kinds, ks, nums, xs, worst, places, count)
        },
        |before| {
            let commands = fitting::fit_points_recursive(&points, tolerance, start, end);
            where_it_stands = stands(&points, tolerance, start, end, &commands);
            let walk = Walk::over(&points, TO_THE_LINE, tolerance, start, end);
            let mut left = written_commands(before, rooms, &commands);
            left[4] = Lent::list_room(places, &walk.worst);
            left
        },
    );
    with_worst(judged(compared, where_it_stands, rooms), &points, range, places)
}

pub fn primitives_of(list: &[f64], tolerance: f64, rooms: Rooms, places: usize) -> Judged {
    let points = triples(list);
    let last = points.len().saturating_sub(1);
    let mut where_it_stands = Stands::UNTRIED;
    let mut call = call_of("fit_points_with_primitives", list, tolerance, [0, last], rooms, places);
    call.lent.push(Lent::count());
    let compared = call.compare(
        |lent| unsafe {
            let (nums, count, kinds) = (lent[0].as_mut_ptr(), lent[1].as_mut_ptr(), lent[2].as_mut_ptr());
            let (points, n, worst) = (lent[3].as_mut_ptr::<f64>(), list.len(), lent[4].as_mut_ptr());
            let (ks, xs, ranges) = (rooms.kinds, rooms.numbers, lent[5].as_mut_ptr());
            pz_fit_points_with_primitives(points, n, tolerance, kinds, ks, nums, xs, worst, places, count, ranges)
        },
        |before| {
            let commands = fitting::fit_points_with_primitives(&points, tolerance);
            where_it_stands = stands(&points, tolerance, 0, last, &commands);
            let walk = Walk::over(&points, TO_THE_LINE, tolerance, 0, last);
            let mut left = written_commands(before, rooms, &commands);
            left[4] = Lent::list_room(places, &walk.worst);
            // counted on the Rust's way, once for each range with a step that its recursion enters
            left[5] = before[5].written(&[walk.ranges as u64]);
            left
        },
    );
    with_worst(judged(compared, where_it_stands, rooms), &points, [0, last], places)
}
