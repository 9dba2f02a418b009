//! Inputs: random ones, and those at which a function is most easily wrong. Each edge that is drawn leaves a label, and
//! the labels are counted. No operation here depends on the machine, so a seed repeats its run everywhere.
use crate::random::Random;

pub struct Draw {
    random: Random,
    labels: Vec<&'static str>,
}

/// How the coordinates of one input are drawn.
#[derive(Clone, Copy)]
enum Flavour {
    Plain,
    Grid,
    Limits,
    Tiny,
    Wide,
    Near,
    Equal,
}

/// In turn by chance: the plain ones stand twice.
const FLAVOURS: [(Flavour, &str); 8] = [
    (Flavour::Plain, "points: plain"),
    (Flavour::Plain, "points: plain"),
    (Flavour::Grid, "points: on a small grid"),
    (Flavour::Limits, "points: at the limits"),
    (Flavour::Tiny, "points: zeros of both signs, subnormals, tiny"),
    (Flavour::Wide, "points: of every size"),
    (Flavour::Near, "points: near each other"),
    (Flavour::Equal, "points: all equal"),
];

const LIMIT: f64 = 1_000_000.0;
const CENTRE: f64 = 1e12;

/// The coordinates of one input.
struct Source {
    flavour: Flavour,
    base: [f64; 3],
}

impl Draw {
    pub fn new(random: Random) -> Draw {
        Draw { random, labels: Vec::new() }
    }

    /// What was met since the last call of this.
    pub fn labels(&mut self) -> Vec<&'static str> {
        std::mem::take(&mut self.labels)
    }

    pub fn label(&mut self, label: &'static str) {
        self.labels.push(label);
    }

    pub fn below(&mut self, end: usize) -> usize {
        self.random.below(end as u64) as usize
    }

    /// True once in n times.
    pub fn one_in(&mut self, n: usize) -> bool {
        self.below(n) == 0
    }

    pub fn flag(&mut self) -> bool {
        self.one_in(2)
    }

    /// One of these.
    pub fn of<T: Copy>(&mut self, choices: &[T]) -> T {
        choices[self.below(choices.len())]
    }

    /// One of these, with its label.
    pub fn edge<T: Copy>(&mut self, edges: &[(T, &'static str)]) -> T {
        let (value, label) = self.of(edges);
        self.label(label);
        value
    }

    /// From 0 to below 1, 53 binary digits.
    pub fn unit(&mut self) -> f64 {
        (self.random.bits() >> 11) as f64 / (1u64 << 53) as f64
    }

    pub fn signed(&mut self, x: f64) -> f64 {
        if self.flag() { -x } else { x }
    }

    /// A number from 2^low to below 2^(high + 1), each binary size equally likely; below -1022 subnormal.
    pub fn sized(&mut self, low: i64, high: i64) -> f64 {
        let exponent = self.random.between(low, high);
        let fraction = self.random.bits() >> 12;
        if exponent < -1022 {
            let digits = (1u64 << 52 | fraction) >> (-1022 - exponent).min(52);
            return f64::from_bits(digits);
        }
        f64::from_bits(((exponent + 1023) as u64) << 52 | fraction)
    }

    /// A number a few units in the last place from this one.
    pub fn near(&mut self, x: f64) -> f64 {
        let moved = x.to_bits().wrapping_add_signed(self.random.between(-2, 2));
        let y = f64::from_bits(moved);
        // zero has no pattern below its own, and the step down from it would change the sign
        if y.is_finite() && y.is_sign_negative() == x.is_sign_negative() { y } else { x }
    }

    // ---- coordinates

    fn source(&mut self) -> Source {
        let (flavour, label) = self.of(&FLAVOURS);
        self.label(label);
        let size = self.of(&[0.0, 1.0, 100.0, LIMIT]);
        let base = [0; 3].map(|_| (self.unit() * 2.0 - 1.0) * size);
        Source { flavour, base }
    }

    fn coordinate(&mut self, source: &Source, axis: usize) -> f64 {
        match source.flavour {
            Flavour::Plain => (self.unit() * 2.0 - 1.0) * 1_000.0,
            Flavour::Grid => self.random.between(-3, 3) as f64,
            Flavour::Limits => self.at_limit(),
            Flavour::Tiny => self.tiny(),
            Flavour::Wide => {
                let x = self.sized(-1074, 18);
                self.signed(x)
            }
            Flavour::Near => self.beside(source.base[axis]),
            Flavour::Equal => source.base[axis],
        }
    }

    fn at_limit(&mut self) -> f64 {
        let x = self.of(&[LIMIT, LIMIT, LIMIT.next_down(), 999_999.5, 524_288.0, 0.0, 1.0]);
        self.signed(x)
    }

    /// Also numbers whose squares are beside the sources' limits 1e-9 and 1e-12.
    pub fn tiny(&mut self) -> f64 {
        let x = match self.below(5) {
            0 => 0.0,
            1 => self.sized(-1074, -1022),
            2 => self.sized(-540, -530),
            3 => self.of(&[f64::MIN_POSITIVE, 1e-160, 1e-9, 1e-6, 3e-5, 1e-4]),
            _ => self.sized(-20, 0),
        };
        self.signed(x)
    }

    /// A coordinate beside this one, in the domain.
    pub fn beside(&mut self, x: f64) -> f64 {
        let step = match self.below(3) {
            0 => 0.0,
            1 => self.sized(-60, -10),
            _ => self.of(&[1e-5, 2e-5, 3e-5, 1e-6, 5e-7, 1e-13]),
        };
        let step = self.signed(step);
        (x + step).clamp(-LIMIT, LIMIT)
    }

    /// A coordinate outside the domain.
    fn bad(&mut self, limit: f64) -> f64 {
        self.edge(&[
            (limit.next_up(), "a coordinate one unit past the limit"),
            (-limit.next_up(), "a coordinate one unit past the limit"),
            (f64::NAN, "a coordinate that is a NaN or infinite"),
            (f64::INFINITY, "a coordinate that is a NaN or infinite"),
            (f64::NEG_INFINITY, "a coordinate that is a NaN or infinite"),
            (1e300, "a coordinate far past the limit"),
        ])
    }

    /// Now and then one of the numbers is put outside the domain.
    pub fn spoil(&mut self, numbers: &mut [f64]) {
        if !numbers.is_empty() && self.one_in(12) {
            let place = self.below(numbers.len());
            numbers[place] = self.bad(LIMIT);
        }
    }

    /// Points of `width` coordinates each.
    pub fn points(&mut self, count: usize, width: usize) -> Vec<f64> {
        let source = self.source();
        let mut numbers: Vec<f64> = (0..count * width).map(|i| self.coordinate(&source, i % width)).collect();
        self.spoil(&mut numbers);
        numbers
    }

    /// The four points of a curve. Now and then its ends meet or nearly so, or its controls lie on the line through them.
    pub fn curve(&mut self, width: usize) -> Vec<f64> {
        let mut curve = self.points(4, width);
        if self.one_in(5) {
            self.label("ends that meet or nearly so");
            for axis in 0..width {
                curve[3 * width + axis] = if self.flag() { curve[axis] } else { self.beside(curve[axis]) };
            }
        }
        if self.one_in(8) {
            self.label("controls on the chord's line");
            self.align(&mut curve, width);
        }
        curve
    }

    /// Puts the controls on the line through the ends, up to 1,000 chords away, as far as rounding and the domain allow.
    fn align(&mut self, curve: &mut [f64], width: usize) {
        for control in 1..3 {
            let far = (self.unit() * 2.0 - 1.0) * self.of(&[1.0, 30.0, 1_000.0]);
            for axis in 0..width {
                let (start, end) = (curve[axis], curve[3 * width + axis]);
                let x = start + far * (end - start);
                curve[control * width + axis] = if x.is_nan() { x } else { x.clamp(-LIMIT, LIMIT) };
            }
        }
    }

    // ---- lists of points

    /// How many points a list has, around each boundary.
    pub fn list_count(&mut self) -> usize {
        match self.below(40) {
            0 => self.edge(&[(2_047, "2,047 points"), (2_048, "2,048 points"), (2_049, "2,049 points")]),
            1 => self.below(2_049),
            2..6 => self.edge(&[(0, "no point"), (1, "one point"), (2, "two points")]),
            6..12 => self.below(80),
            _ => 3 + self.below(9),
        }
    }

    /// A list of pairs, now and then with half a pair behind it.
    pub fn list(&mut self) -> Vec<f64> {
        let count = self.list_count();
        let mut list = if self.one_in(4) { self.round_trip(count) } else { self.points(count, 2) };
        if self.one_in(20) {
            self.label("a slice that is not whole points");
            list.push(1.0);
        }
        list
    }

    /// Points along a circle, with noise, turning by the same angle each time.
    pub fn round_trip(&mut self, count: usize) -> Vec<f64> {
        self.label("points: along a circle");
        let m = self.sized(-9, 0);
        let m = self.signed(m);
        let (c, s) = ((1.0 - m * m) / (1.0 + m * m), 2.0 * m / (1.0 + m * m));
        let middle = [self.unit() * 100.0, self.unit() * 100.0];
        let noise = self.of(&[0.0, 1e-9, 0.01, 3.0]);
        let mut spoke = [self.sized(-3, 9), 0.0];
        let mut list = Vec::with_capacity(2 * count);
        for _ in 0..count {
            for axis in 0..2 {
                list.push(middle[axis] + spoke[axis] + (self.unit() - 0.5) * noise);
            }
            spoke = [c * spoke[0] - s * spoke[1], s * spoke[0] + c * spoke[1]];
        }
        self.spoil(&mut list);
        list
    }

    /// A centre for a list: beside its points, far away, at the limits, or past them.
    pub fn centre(&mut self, list: &[f64]) -> [f64; 2] {
        let centre = match self.below(6) {
            0 => [0.0, -0.0],
            1 if list.len() > 1 => [list[0], list[1]],
            2 => [self.far(), self.far()],
            3 => [self.tiny(), self.tiny()],
            _ => [self.unit() * 200.0 - 50.0, self.unit() * 200.0 - 50.0],
        };
        self.centre_beside(centre)
    }

    /// This centre, or one at the limits or past them.
    pub fn centre_beside(&mut self, mut centre: [f64; 2]) -> [f64; 2] {
        if self.one_in(12) {
            let axis = self.below(2);
            centre[axis] = self.edge(&[(CENTRE, "a centre at the limit"), (-CENTRE, "a centre at the limit")]);
        } else if self.one_in(12) {
            self.label("a bad centre");
            let axis = self.below(2);
            centre[axis] = self.bad(CENTRE);
        }
        centre
    }

    fn far(&mut self) -> f64 {
        let x = self.sized(10, 38);
        self.signed(x)
    }

    // ---- parameters

    /// A curve's parameter.
    pub fn parameter(&mut self) -> f64 {
        if self.flag() {
            return self.unit();
        }
        self.edge(&[
            (0.0, "t = 0"),
            (0.0, "t = 0"),
            (1.0, "t = 1"),
            (1.0, "t = 1"),
            (-0.0, "t = -0"),
            (0.5, "t = 0.5"),
            (1.0 / 3.0, "t = 1/3"),
            (f64::from_bits(1), "t subnormal"),
            (1e-310, "t subnormal"),
            (f64::MIN_POSITIVE, "t tiny"),
            (1f64.next_down(), "t one unit below 1"),
            (1f64.next_up(), "t one unit above 1"),
            (-f64::from_bits(1), "t one unit below 0"),
            (f64::NAN, "t a NaN or infinite"),
            (f64::INFINITY, "t a NaN or infinite"),
        ])
    }

    /// A number from least to most, most often within, else at an end, beside it, or no number.
    fn ranged(&mut self, least: f64, most: f64, low: i64, high: i64) -> f64 {
        if !self.one_in(4) {
            return self.sized(low, high).clamp(least, most);
        }
        self.edge(&[
            (least, "tolerance at its least"),
            (least, "tolerance at its least"),
            (most, "tolerance at its most"),
            (most, "tolerance at its most"),
            (least.next_up(), "tolerance one unit inside"),
            (most.next_down(), "tolerance one unit inside"),
            (least.next_down(), "tolerance one unit outside"),
            (most.next_up(), "tolerance one unit outside"),
            (0.0, "tolerance 0 or below"),
            (-1.0, "tolerance 0 or below"),
            (f64::NAN, "tolerance a NaN or infinite"),
            (f64::INFINITY, "tolerance a NaN or infinite"),
        ])
    }

    /// A tolerance or a resolution.
    pub fn tolerance(&mut self) -> f64 {
        self.ranged(0.001, 1_000.0, -10, 9)
    }

    /// A radius.
    pub fn radius(&mut self, x: f64) -> f64 {
        if !self.one_in(6) {
            return x;
        }
        self.edge(&[
            (0.0, "radius 0"),
            (-0.0, "radius 0"),
            (f64::from_bits(1), "radius tiny"),
            (1e-9, "radius tiny"),
            (CENTRE, "radius at its most"),
            (CENTRE.next_down(), "radius at its most"),
            (CENTRE.next_up(), "radius outside"),
            (-f64::from_bits(1), "radius outside"),
            (-1.0, "radius outside"),
            (f64::NAN, "radius outside"),
            (f64::INFINITY, "radius outside"),
        ])
    }

    /// A squared tolerance.
    pub fn tolerance_sq(&mut self) -> f64 {
        self.ranged(1e-6, LIMIT, -20, 19)
    }

    pub fn depth(&mut self) -> usize {
        match self.below(6) {
            0 => self.edge(&[
                (0, "depth 0"),
                (10, "depth 10"),
                (11, "depth 11"),
                (64, "depth far above 10"),
                (usize::MAX, "depth far above 10"),
            ]),
            1 => 7 + self.below(4),
            _ => self.below(7),
        }
    }

    pub fn steps(&mut self) -> usize {
        match self.below(12) {
            0 => self.edge(&[
                (0, "0 steps"),
                (1, "1 step"),
                (2_047, "2,047 steps"),
                (2_048, "2,048 steps"),
                (2_049, "2,049 steps"),
                (usize::MAX, "steps far above 2,048"),
            ]),
            1 => 1 + self.below(2_048),
            _ => 1 + self.below(40),
        }
    }

    /// The room of an output of `width` numbers an item, whose most is so many items.
    pub fn room(&mut self, width: usize, most: usize) -> usize {
        let full = width * most;
        let part = 1 + self.below(width - 1);
        match self.below(16) {
            0 => self.labelled("room one item short", full.saturating_sub(width)),
            1 => self.labelled("room not whole", full + part),
            2 => self.labelled("room one number short, not whole", full.saturating_sub(1)),
            3 => self.labelled("room for one item more", full + width),
            4 => self.labelled("no room", 0),
            5 => full + width * self.below(9),
            _ => self.labelled("room exactly full", full),
        }
    }

    pub fn labelled(&mut self, label: &'static str, value: usize) -> usize {
        self.label(label);
        value
    }
}
