//! Document 01's margins: where they hold in each arc trial that the given Rust makes, a fit equals the Rust's.
//!
//! The walk goes as the Rust's recursion does, over the Rust's own functions, and measures each arc trial on its way. It
//! makes commands too; as long as those are the Rust's, it made the Rust's trials. Its Line test is that of the Rust whose
//! way it goes: the given one, or, for courses, the one with the distance to the segment put in (document 02, §4).
use super::worst::{bound, worst_step};
use raygeo::geo::algo::fitting;
use raygeo::geo::shape::arc::is_arc_clockwise;
use raygeo::geo::types::{Command, Point, Point3D};
use std::f64::consts::PI;

/// Where a fit stands to the margins, over all its arc trials.
#[derive(Clone, Copy, PartialEq)]
pub enum Margins {
    /// No arc trial was made.
    Untried,
    /// Each margin holds in each trial.
    All,
    /// Each holds on which an answer hangs: what is asked of the traversal only where the deviation passes, and a step's
    /// cross only where the step changes halves.
    Asked,
    /// Not even those.
    Outside,
}

impl Margins {
    pub fn label(self) -> &'static str {
        match self {
            Margins::Untried => "margins: no arc trial",
            Margins::All => "margins: all hold",
            Margins::Asked => "margins: those hold that are asked",
            Margins::Outside => "margins: outside",
        }
    }

    /// Of two walks.
    pub fn and(self, other: Margins) -> Margins {
        let order = [Margins::Untried, Margins::All, Margins::Asked, Margins::Outside];
        let place = |m: Margins| order.iter().position(|x| *x == m).expect("one of them");
        order[place(self).max(place(other))]
    }
}

/// The margins on which an answer hangs, in document 01's order.
pub const MARGINS: [&str; 5] = [
    "not held: the deviation off the tolerance",
    "not held: the traversal off a turn less 0.001",
    "not held: an angle off a half turn",
    "not held: a point off the centre",
    "not held: a cross off zero",
];

/// The deviation of a range's points from the Line through its ends, and the first farthest of them.
pub type LineTest = fn(&[Point3D], usize, usize) -> (f64, usize);

/// That of the given Rust, from the endless line.
pub const TO_THE_LINE: LineTest = fitting::get_polyline_line_deviation;

/// That of the Rust with the distance to the segment put in.
pub const TO_THE_SEGMENT: LineTest = raygeo_segment::geo::algo::fitting::get_polyline_line_deviation;

pub struct Walk<'a> {
    points: &'a [Point3D],
    line: LineTest,
    tolerance: f64,
    pub commands: Vec<Command>,
    /// How many steps of the points each command covers.
    pub steps: Vec<usize>,
    /// The worst step of each, counted in the points; 0 of a Line.
    pub worst: Vec<u32>,
    /// Whether the Rust's own numbers tell each of them.
    pub told: bool,
    /// How many ranges with a step were entered.
    pub ranges: usize,
    pub margins: Margins,
    /// Which of `MARGINS` did not hold in some trial.
    pub missed: [bool; 5],
}

fn plane(p: Point3D) -> Point {
    Point::new(p.x, p.y)
}

/// What the Rust sums of the angles between neighbours, and how near one of them comes to a half turn.
fn traversal(points: &[Point3D], centre: Point) -> (f64, f64) {
    let angle = |p: &Point3D| (p.y - centre.y).atan2(p.x - centre.x);
    let (mut total, mut nearest, mut prev) = (0.0, PI, angle(&points[0]));
    for p in &points[1..] {
        let mut delta = angle(p) - prev;
        if delta > PI {
            delta -= 2.0 * PI;
        } else if delta <= -PI {
            delta += 2.0 * PI;
        }
        total += delta;
        nearest = nearest.min(PI - delta.abs());
        prev = angle(p);
    }
    (total.abs(), nearest)
}

/// Whether the cross of two offsets is clear of zero, or theirs because they are equal.
fn is_clear(p: Point, q: Point) -> bool {
    p == q || p.perp_dot(q).abs() > 1e-9 * (p.length() * q.length())
}

/// Document 01's half 0.
fn in_half_0(first: Point, q: Point) -> bool {
    let cross = first.perp_dot(q);
    cross > 0.0 || (cross == 0.0 && first.dot(q) > 0.0)
}

/// Whether the crosses are clear: all of them, and those at which W looks.
fn crosses(offsets: &[Point]) -> (bool, bool) {
    let first = offsets[0];
    let halves = offsets[1..].iter().all(|q| is_clear(first, *q));
    let steps = || offsets.windows(2).map(|step| (step[0], step[1]));
    let changed = |(p, q): (Point, Point)| in_half_0(first, p) != in_half_0(first, q);
    let all = steps().all(|(p, q)| is_clear(p, q));
    let asked = steps().filter(|step| changed(*step)).all(|(p, q)| is_clear(p, q));
    (halves && all, halves && asked)
}

/// One arc trial.
struct Trial {
    passes: bool,
    /// Whether each margin holds, asked or not.
    all: bool,
    /// Which of `MARGINS` are asked and do not hold.
    missed: [bool; 5],
}

fn trial(points: &[Point3D], centre: Point, radius: f64, tolerance: f64) -> Trial {
    let deviation = fitting::get_polyline_arc_deviation(points, centre, radius);
    let (total, half_turn) = traversal(points, centre);
    let offsets: Vec<Point> = points.iter().map(|p| plane(*p) - centre).collect();
    let (all_crosses, asked_crosses) = crosses(&offsets);
    let within = deviation < tolerance;
    let clear = (deviation - tolerance).abs() > bound(radius);
    let round = [(total - (2.0 * PI - 1e-3)).abs() > 1e-6, half_turn > 1e-6, offsets.iter().all(|q| q.length() > 1e-6)];
    Trial {
        passes: within && total < 2.0 * PI - 1e-3,
        all: clear && round == [true; 3] && all_crosses,
        missed: [!clear, within && !round[0], within && !round[1], within && !round[2], within && !asked_crosses],
    }
}

impl<'a> Walk<'a> {
    /// The walk of the range from start to end, which lie inside the points.
    pub fn over(points: &'a [Point3D], line: LineTest, tolerance: f64, start: usize, end: usize) -> Walk<'a> {
        let mut walk = Walk {
            points,
            line,
            tolerance,
            commands: Vec::new(),
            steps: Vec::new(),
            worst: Vec::new(),
            told: true,
            ranges: 0,
            margins: Margins::Untried,
            missed: [false; 5],
        };
        walk.range(start, end);
        walk
    }

    fn is_sharp(&self, start: usize, end: usize, split: usize) -> bool {
        if split <= start || end <= split {
            return false;
        }
        let [a, b, c] = [split - 1, split, split + 1].map(|i| plane(self.points[i]));
        let (into, out) = (b - a, c - b);
        let (len1, len2) = (into.length(), out.length());
        len1 > 1e-9 && len2 > 1e-9 && into.dot(out) / (len1 * len2) < 0.5
    }

    fn note(&mut self, trial: &Trial) {
        let asked = trial.missed == [false; 5];
        let margins = if trial.all {
            Margins::All
        } else if asked {
            Margins::Asked
        } else {
            Margins::Outside
        };
        self.margins = self.margins.and(margins);
        (0..5).for_each(|i| self.missed[i] |= trial.missed[i]);
    }

    /// The worst step of an Arc over these points, the first of which has the index `start`.
    fn note_worst(&mut self, start: usize, range: &[Point3D], centre: Point, radius: f64) {
        let worst = worst_step(range, centre, radius);
        self.worst.push(worst.counted_from(start) as u32);
        self.told &= worst.by_rust;
    }

    /// Tries the arc round a fitted centre; whether it passed and was written.
    fn arc(&mut self, start: usize, end: usize, fitted: Point) -> bool {
        let (a, b) = (self.points[start], self.points[end]);
        let centre = fitting::project_circle_center_to_bisector(a, b, fitted);
        let radius = plane(a).distance(centre);
        let range = &self.points[start..=end];
        let trial = trial(range, centre, radius, self.tolerance);
        self.note(&trial);
        if trial.passes {
            let flat: Vec<Point> = range.iter().map(|p| plane(*p)).collect();
            let z = if is_arc_clockwise(&flat, centre) { -1.0 } else { 1.0 };
            let center_offset = Point3D::new(centre.x - a.x, centre.y - a.y, 0.0);
            self.commands.push(Command::Arc { end: b, center_offset, normal: Point3D::new(0.0, 0.0, z) });
            self.steps.push(end - start);
            self.note_worst(start, range, centre, radius);
        }
        trial.passes
    }

    /// Both arc trials, the second where the first was not made or failed.
    fn arcs(&mut self, start: usize, end: usize) -> bool {
        if end - start == 2 {
            let [a, b, c] = [start, start + 1, end].map(|i| self.points[i]);
            let through = fitting::fit_circle_to_3_points(a, b, c);
            if through.is_some_and(|(centre, _)| self.arc(start, end, centre)) {
                return true;
            }
        }
        let fitted = fitting::fit_circle_to_points_3d(&self.points[start..=end]);
        fitted.is_some_and(|(centre, _, _)| self.arc(start, end, centre))
    }

    fn range(&mut self, start: usize, end: usize) {
        if start >= end {
            return;
        }
        self.ranges += 1;
        let (deviation, split) = (self.line)(self.points, start, end);
        if deviation < self.tolerance {
            self.commands.push(Command::Line { end: self.points[end] });
            self.steps.push(end - start);
            self.worst.push(0);
            return;
        }
        let closed = plane(self.points[start]).distance(plane(self.points[end])) < 1e-6;
        if !closed && !self.is_sharp(start, end, split) && self.arcs(start, end) {
            return;
        }
        let split = if split == start || split == end { (start + end) / 2 } else { split };
        self.range(start, split);
        self.range(split, end);
    }
}
