//! The live thinner beside a plain model of document 02's words (§2, §12) over the given Rust's deviation: whole runs, each
//! call given the last one's state, and single calls on states that no run reaches.
use super::bezier::triple;
use super::calls::{pz_live_close, pz_live_feed, pz_live_retune, pz_live_start};
use super::draw::Draw;
use super::frame::{Call, Compared, Function, Outcome};
use super::lent::{Lent, patterns};
use super::shapes::{self, tolerance_for};
use super::table::{self, Row};
use raygeo::geo::algo::fitting::get_polyline_line_deviation;
use raygeo::geo::types::Point3D;

pub const FUNCTIONS: [Function; 5] = [live_run, live_start, live_feed, live_close, live_retune];

/// "an anchor and up to 64 points after it", three numbers each
pub const SLOTS: usize = 65;
pub const NUMBERS: usize = 3 * SLOTS;

/// "Its most is 63 ends."
pub const MOST: usize = 63;

pub type Triple = [f64; 3];

// ---- the model

/// The thinner as it is lent. What stands in slots past the count is kept too: all lent memory is compared.
#[derive(Clone)]
pub struct State {
    pub tolerance: f64,
    pub points: Vec<f64>,
    pub count: usize,
    pub closed: u32,
}

/// The first row, in this order, that the arguments fall under.
fn first(rows: &[Row]) -> u32 {
    rows.iter().find(|row| row.1).map_or(0, |row| row.0)
}

impl State {
    pub fn new(tolerance: f64) -> State {
        State { tolerance, points: vec![0.0; NUMBERS], count: 0, closed: 0 }
    }

    fn slot(&self, i: usize) -> Triple {
        [self.points[3 * i], self.points[3 * i + 1], self.points[3 * i + 2]]
    }

    fn put(&mut self, i: usize, p: Triple) {
        self.points[3 * i..3 * i + 3].copy_from_slice(&p);
    }

    /// "A state with over 64 held points gives 2; its numbers fall under 5 and 6. 10 when a point or a second close follows
    /// the close, checked after 6."
    pub fn refusal(&self, own: &[f64]) -> u32 {
        first(&[
            (2, self.count > SLOTS),
            table::outside(table::coordinates(&self.points) && table::coordinates(own)),
            table::bad_tolerance(table::tolerance(self.tolerance)),
            (10, self.closed != 0),
        ])
    }

    /// "If the line from the anchor to the new point has a deviation at or above the tolerance over the points between, the
    /// previous point is handed out as a Line end and becomes the anchor; so it does if 64 points are already held."
    pub fn feed(&mut self, p: Triple) -> Option<Triple> {
        if self.count >= 2 {
            let mut line: Vec<Point3D> = (0..self.count).map(|i| triple(&self.points, i)).collect();
            line.push(triple(&p, 0));
            if self.count == SLOTS || get_polyline_line_deviation(&line, 0, self.count).0 >= self.tolerance {
                let previous = self.slot(self.count - 1);
                self.put(0, previous);
                self.put(1, p);
                self.count = 2;
                return Some(previous);
            }
        }
        self.put(self.count, p);
        self.count += 1;
        None
    }

    /// "After the close it gives 10, checked after 6 and before 9."
    pub fn retune_refusal(&self, finer: f64, room: usize) -> u32 {
        first(&[
            table::not_whole(room, 3),
            (2, self.count > SLOTS),
            table::outside(table::coordinates(&self.points)),
            table::bad_tolerance(table::tolerance(self.tolerance) && table::tolerance(finer)),
            (10, self.closed != 0),
            table::no_room(room, 3 * MOST),
        ])
    }

    /// "the held points are fed again from the anchor under the new tolerance, in order, and may hand out several ends": each with
    /// its slot.
    pub fn retune(&mut self, finer: f64) -> Vec<(usize, Triple)> {
        let held: Vec<Triple> = (0..self.count).map(|i| self.slot(i)).collect();
        self.tolerance = finer;
        self.count = self.count.min(1);
        (1..held.len()).filter_map(|i| self.feed(held[i]).map(|end| (i - 1, end))).collect()
    }

    /// "A close hands out the last point fed. A run of no or one point hands out none."
    pub fn close(&mut self) -> Option<Triple> {
        self.closed = 1;
        (self.count >= 2).then(|| self.slot(self.count - 1))
    }
}

// ---- the calls, as they are lent

/// What a call is lent and leaves: the slots, the count, the flag, the end and how many were handed out.
pub fn lent_state(s: &State) -> Vec<Lent> {
    let words = |words: &[u64]| Lent::room(0).written(words);
    vec![
        words(&patterns(&s.points)),
        words(&[s.count as u64]),
        words(&[(0xa5a5_a5a5 << 32) | s.closed as u64]),
        Lent::room(3),
        Lent::count(),
    ]
}

/// The memory once the state is `s` and the end, if there is one, is handed out.
fn left(before: &[Lent], s: &State, end: Option<Triple>) -> Vec<Lent> {
    let mut after = lent_state(s);
    after[3] = before[3].written(&end.map_or(vec![], |p| patterns(&p)));
    after[4] = before[4].written(&[end.is_some() as u64]);
    after
}

fn arguments(s: &State, own: &[f64]) -> Vec<(&'static str, Vec<u64>)> {
    vec![
        ("tolerance", patterns(&[s.tolerance])),
        ("range", vec![s.count as u64, s.closed as u64]),
        ("points", patterns(&s.points)),
        ("numbers", patterns(own)),
    ]
}

fn proved_feed(s: &State, p: &Triple, lent: &mut [Lent]) -> u32 {
    let (points, count) = (lent[0].as_mut_ptr(), lent[1].as_mut_ptr());
    let (end, handed) = (lent[3].as_mut_ptr(), lent[4].as_mut_ptr());
    unsafe { pz_live_feed(s.tolerance, points, count, s.closed, p.as_ptr(), end, handed) }
}

fn proved_close(s: &State, lent: &mut [Lent]) -> u32 {
    let (points, closed) = (lent[0].as_mut_ptr::<f64>(), lent[2].as_mut_ptr());
    let (end, handed) = (lent[3].as_mut_ptr(), lent[4].as_mut_ptr());
    unsafe { pz_live_close(s.tolerance, points, s.count, closed, end, handed) }
}

pub fn feed_of(s: &State, p: Triple) -> Compared {
    let call =
        Call { function: "live_feed", arguments: arguments(s, &p), refusal: s.refusal(&p), lent: lent_state(s) };
    call.compare(
        |lent| proved_feed(s, &p, lent),
        |before| {
            let mut next = s.clone();
            let end = next.feed(p);
            left(before, &next, end)
        },
    )
}

pub fn close_of(s: &State) -> Compared {
    let call =
        Call { function: "live_close", arguments: arguments(s, &[]), refusal: s.refusal(&[]), lent: lent_state(s) };
    call.compare(
        |lent| proved_close(s, lent),
        |before| {
            let mut next = s.clone();
            let end = next.close();
            left(before, &next, end)
        },
    )
}

pub fn retune_of(s: &State, finer: f64, room: usize) -> Compared {
    let mut lent = lent_state(s);
    lent[3] = Lent::room(room);
    lent.push(Lent::room(0).written(&patterns(&[s.tolerance])));
    let mut own = arguments(s, &[finer]);
    own.push(("room", vec![room as u64]));
    let call = Call { function: "live_retune", arguments: own, refusal: s.retune_refusal(finer, room), lent };
    call.compare(
        |lent| {
            let (points, count, out) = (lent[0].as_mut_ptr(), lent[1].as_mut_ptr(), lent[3].as_mut_ptr());
            let (handed, tolerance) = (lent[4].as_mut_ptr(), lent[5].as_mut_ptr());
            unsafe { pz_live_retune(finer, tolerance, points, count, s.closed, out, room, handed) }
        },
        |before| {
            let mut next = s.clone();
            let ends = next.retune(finer);
            let mut after = lent_state(&next);
            after[3] = before[3].written(&ends.iter().flat_map(|end| patterns(&end.1)).collect::<Vec<u64>>());
            after[4] = before[4].written(&[ends.len() as u64]);
            after.push(before[5].written(&patterns(&[finer])));
            after
        },
    )
}

pub fn start_of(tolerance: f64) -> Compared {
    let mut lent = lent_state(&State::new(0.0));
    (lent[0], lent[4]) = (Lent::room(NUMBERS), Lent::room(1));
    let call = Call {
        function: "live_start",
        arguments: vec![("tolerance", patterns(&[tolerance]))],
        refusal: first(&[table::bad_tolerance(table::tolerance(tolerance))]),
        lent,
    };
    call.compare(
        |lent| {
            let (points, count, closed) = (lent[0].as_mut_ptr(), lent[1].as_mut_ptr(), lent[2].as_mut_ptr());
            unsafe { pz_live_start(tolerance, lent[4].as_mut_ptr(), points, count, closed) }
        },
        |before| {
            let mut after = lent_state(&State::new(tolerance));
            after[4] = before[4].written(&patterns(&[tolerance]));
            after
        },
    )
}

// ---- forged states

/// Points that a state may hold, and one to feed.
fn some_points(draw: &mut Draw) -> Vec<f64> {
    let mut list = shapes::points(draw, SLOTS + 1);
    if draw.one_in(6) {
        draw.label("held: along a line");
        (1..SLOTS).for_each(|i| list[2 * i + 1] = list[1]);
    }
    shapes::raised(&list, draw)
}

pub fn forged(draw: &mut Draw) -> (State, Triple) {
    let list = some_points(draw);
    let tolerance = tolerance_for(draw, &list, 3);
    let count = draw.edge(&[
        (0, "count: 0"),
        (1, "count: 1"),
        (2, "count: 2"),
        (3, "count: 3"),
        (10, "count: some"),
        (33, "count: some"),
        (63, "count: 63"),
        (64, "count: 64"),
        (65, "count: 65"),
        (66, "count: 66"),
        (usize::MAX, "count: far too large"),
    ]);
    let closed = if draw.one_in(6) { draw.of(&[1, 2, 256, u32::MAX]) } else { 0 };
    let mut s = State { tolerance, points: list[..NUMBERS].to_vec(), count, closed };
    let mut p = [list[NUMBERS], list[NUMBERS + 1], list[NUMBERS + 2]];
    draw.spoil(&mut s.points);
    draw.spoil(&mut p);
    (s, p)
}

fn live_start(draw: &mut Draw) -> Compared {
    start_of(draw.tolerance())
}

fn live_feed(draw: &mut Draw) -> Compared {
    let (s, p) = forged(draw);
    feed_of(&s, p)
}

fn live_close(draw: &mut Draw) -> Compared {
    close_of(&forged(draw).0)
}

/// A new tolerance: finer, coarser, the same, outside the domain.
pub fn another(draw: &mut Draw, tolerance: f64) -> f64 {
    match draw.below(4) {
        0 => draw.edge(&[(1_000.0, "retuned: to the coarsest"), (0.001, "retuned: to the finest")]),
        1 if table::tolerance(tolerance) => {
            draw.label("retuned: by half or twice");
            tolerance * draw.of(&[0.5, 1.0, 2.0])
        }
        _ => draw.tolerance(),
    }
}

pub fn room_for_ends(draw: &mut Draw) -> usize {
    match draw.below(12) {
        0 => draw.labelled("room for 62 ends", 3 * MOST - 3),
        1 => draw.labelled("room not whole", 3 * MOST + 1),
        2 => draw.labelled("no room", 0),
        3 => draw.labelled("more room", 4 * MOST),
        _ => 3 * MOST,
    }
}

fn live_retune(draw: &mut Draw) -> Compared {
    let (s, _) = forged(draw);
    let finer = another(draw, s.tolerance);
    retune_of(&s, finer, room_for_ends(draw))
}

// ---- whole runs

#[derive(Clone, Copy)]
enum Event {
    Feed(Triple),
    Retune(f64, usize),
    Close,
}

fn events(draw: &mut Draw, list: &[f64], tolerance: f64) -> Vec<Event> {
    let mut all: Vec<Event> = list.chunks(3).map(|p| Event::Feed([p[0], p[1], p[2]])).collect();
    if !all.is_empty() && draw.one_in(10) {
        draw.label("a close in the middle");
        all.insert(draw.below(all.len()), Event::Close);
    }
    if draw.one_in(3) {
        draw.label("a point outside the domain");
        let place = draw.below(all.len() + 1);
        all.insert(place, Event::Feed([draw.of(&[f64::NAN, 1e7, f64::INFINITY]), 0.0, 0.0]));
    }
    if draw.flag() {
        for _ in 0..1 + draw.below(4) {
            draw.label("a new tolerance");
            let place = draw.below(all.len() + 1);
            all.insert(place, Event::Retune(another(draw, tolerance), room_for_ends(draw)));
        }
    }
    if !draw.one_in(8) {
        all.push(Event::Close);
    }
    if draw.one_in(8) {
        draw.label("calls after the close");
        all.extend([Event::Feed([1.0, 2.0, 3.0]), Event::Retune(1.0, 3 * MOST), Event::Retune(1.0, 0), Event::Close]);
    }
    all
}

/// What a run fed, and at which place of it each end stands, with the tolerance in force when it came out.
#[derive(Default)]
struct Trace {
    fed: Vec<Point3D>,
    places: Vec<(usize, f64)>,
}

impl Trace {
    /// "the ends are fed points in order, the last included, and each point between two neighbouring ends is below the
    /// tolerance from their line. The first point fed counts as an end in that rule. A run of no or one point hands out none."
    fn holds(&self, closed: bool) -> bool {
        let mut last = 0;
        for &(place, tolerance) in &self.places {
            let line = |j: usize| [self.fed[last], self.fed[j], self.fed[place]];
            let near = |j: usize| get_polyline_line_deviation(&line(j), 0, 2).0 < tolerance;
            if place <= last || place > last + SLOTS - 1 || !(last + 1..place).all(near) {
                return false;
            }
            last = place;
        }
        let end = self.fed.len().saturating_sub(1);
        end <= last + SLOTS - 1 && (!closed || last == end) && (end > 0 || self.places.is_empty())
    }
}

/// The first words that a call answers, and those of the ends and of the state.
fn answered(words: &mut Vec<u64>, refused: u32, ends: &[f64], s: &State) {
    words.extend([refused as u64, (ends.len() / 3) as u64]);
    words.extend(patterns(ends));
    words.extend(patterns(&s.points));
    words.extend([s.count as u64, (s.closed != 0) as u64, s.tolerance.to_bits()]);
}

impl State {
    fn refuses(&self, event: &Event) -> u32 {
        match event {
            Event::Feed(p) => self.refusal(p),
            Event::Retune(finer, room) => self.retune_refusal(*finer, *room),
            Event::Close => self.refusal(&[]),
        }
    }

    /// The ends of an accepted call, each with its place among the points fed.
    fn made(&mut self, event: &Event, fed: &mut Vec<Point3D>) -> Vec<(usize, Triple)> {
        let (last, anchor) = (fed.len().saturating_sub(1), fed.len() - self.count);
        match event {
            Event::Feed(p) => {
                fed.push(triple(p, 0));
                self.feed(*p).map(|end| (last, end)).into_iter().collect()
            }
            Event::Retune(finer, _) => {
                self.retune(*finer).into_iter().map(|(slot, end)| (anchor + slot, end)).collect()
            }
            Event::Close => self.close().map(|end| (last, end)).into_iter().collect(),
        }
    }
}

/// What the model answers to each call, as words.
fn modelled(tolerance: f64, events: &[Event]) -> Vec<u64> {
    let (mut s, mut trace, mut words) = (State::new(tolerance), Trace::default(), Vec::new());
    for event in events {
        let refused = s.refuses(event);
        let ends = if refused == 0 { s.made(event, &mut trace.fed) } else { vec![] };
        trace.places.extend(ends.iter().map(|end| (end.0, s.tolerance)));
        answered(&mut words, refused, &ends.iter().flat_map(|end| end.1).collect::<Vec<f64>>(), &s);
    }
    words.push(trace.holds(s.closed != 0) as u64);
    words
}

/// What the proved functions answer, each given the last one's state.
fn proved(tolerance: f64, events: &[Event]) -> Vec<u64> {
    let (mut s, mut words) = (State::new(f64::NAN), Vec::new());
    s.points.fill(f64::NAN);
    unsafe { pz_live_start(tolerance, &mut s.tolerance, s.points.as_mut_ptr(), &mut s.count, &mut s.closed) };
    let mut out = vec![0.0; 4 * MOST];
    for event in events {
        let (mut handed, points, end) = (0, s.points.as_mut_ptr(), out.as_mut_ptr());
        let refused = match event {
            Event::Feed(p) => unsafe {
                pz_live_feed(s.tolerance, points, &mut s.count, s.closed, p.as_ptr(), end, &mut handed)
            },
            Event::Retune(finer, room) => unsafe {
                pz_live_retune(*finer, &mut s.tolerance, points, &mut s.count, s.closed, end, *room, &mut handed)
            },
            Event::Close => unsafe {
                pz_live_close(s.tolerance, points, s.count, &mut s.closed, end, &mut handed)
            },
        };
        answered(&mut words, refused, &out[..3 * handed], &s);
    }
    words.push(1);
    words
}

fn words_of(event: &Event) -> Vec<u64> {
    match event {
        Event::Feed(p) => [vec![0], patterns(p)].concat(),
        Event::Retune(finer, room) => vec![2, finer.to_bits(), *room as u64],
        Event::Close => vec![1],
    }
}

fn live_run(draw: &mut Draw) -> Compared {
    let count = draw.of(&[0, 1, 2, 3, 5, 10, 20, 40, 64, 65, 66, 67, 100, 140]);
    let list = if draw.one_in(4) {
        draw.label("run: a track");
        shapes::track(draw, count, 4.0, 1.0)
    } else {
        shapes::points(draw, count)
    };
    let list = shapes::raised(&list, draw);
    let tolerance = match draw.below(4) {
        0 => draw.labelled("tolerance coarse", 1_000) as f64,
        _ => Some(tolerance_for(draw, &list, 3)).filter(|t| table::tolerance(*t)).unwrap_or(1.0),
    };
    let events = events(draw, &list, tolerance);
    Compared {
        function: "live run",
        arguments: vec![
            ("tolerance", patterns(&[tolerance])),
            ("events", events.iter().flat_map(words_of).collect()),
        ],
        proved: Outcome { number: 0, lent: vec![Lent::room(0).written(&proved(tolerance, &events))] },
        given: Outcome { number: 0, lent: vec![Lent::room(0).written(&modelled(tolerance, &events))] },
    }
}
