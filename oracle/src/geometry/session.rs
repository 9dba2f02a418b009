//! Look first, then store: askings and commits (document 02, §9, with the next lap of §13), beside a plain model of these words
//! over the Rust's fit of a lap.
//!
//! What is compared is a whole session, each call given the last one's session: every answer, every byte that is lent to a
//! call, every ticket, the edit number, and what document 02 says of them together: that asking and then committing has the
//! effect of replacement, and that a ticket serves once.
use super::calls::{pz_ask_lap, pz_commit_lap, pz_replace_lap};
use super::draw::Draw;
use super::fit::{Judged, Stands};
use super::frame::{Call, Compared, Function, Outcome};
use super::laps::{self, COMMAND, Made, Replacement, argument, carries_on, first_bytes, laps_of};
use super::lent::{Lent, patterns};
use super::margins::Margins;
use super::simplify::Commands;
use super::table::{self, Row, refusal};

pub const FUNCTIONS: [Function; 1] = [session];

/// "13 when the session stands at 1,000,000 or above"
const MOST_EDITS: u32 = 1_000_000;

/// Room for every file.
const ROOM: usize = 58_920;

/// "a ticket with the lap, the tolerance and the session's edit number", and "each one's command count" of the lap and of the
/// next where that is refitted.
#[derive(Clone, Copy)]
pub struct Ticket {
    pub lap: usize,
    pub tolerance: f64,
    pub edit: u32,
    pub count: usize,
    pub next: usize,
}

impl Ticket {
    fn words(&self) -> Vec<u64> {
        vec![self.lap as u64, self.tolerance.to_bits(), self.edit as u64, self.count as u64, self.next as u64]
    }
}

// ---- asking

/// "Asking makes replacement's checks, with 9 for a lent buffer below the lap's own most": of both laps where two are fitted. The
/// replacement's room is the buffer's.
fn ask_rows(r: &Replacement) -> Vec<Row> {
    let mut rows = r.checks();
    rows.push((9, (r.room as f64) < COMMAND as f64 * r.own_most()));
    rows
}

/// The memory of four bytes in a word, whose others stay.
fn half(before: &Lent, n: u32) -> Lent {
    before.written(&[(before.words()[0] >> 32) << 32 | n as u64])
}

/// What an asking leaves that made these laps.
fn asked(before: &[Lent], r: &Replacement, edits: u32, made: &[Vec<u8>]) -> Vec<Lent> {
    let ticket = ticket_of(r, edits, made);
    let mut left = before.to_vec();
    left[0] = Lent::byte_room(r.room, &made.concat());
    left[5] = before[5].written(&[ticket.lap as u64]);
    left[6] = before[6].written(&patterns(&[ticket.tolerance]));
    left[7] = half(&before[7], ticket.edit);
    left[8] = before[8].written(&[ticket.count as u64]);
    left[9] = before[9].written(&[ticket.next as u64]);
    left
}

fn ticket_of(r: &Replacement, edits: u32, made: &[Vec<u8>]) -> Ticket {
    let count = |i: usize| made.get(i).map_or(0, |body| body.len() / COMMAND);
    Ticket { lap: r.lap, tolerance: r.tolerance, edit: edits, count: count(0), next: count(1) }
}

/// The laps that an asking made, where document 01's margins leave one open: that one as the proved function has it.
fn taken(proved: &Outcome, room: usize, made: &[Made]) -> Vec<Vec<u8>> {
    let bytes = first_bytes(&proved.lent[0], room);
    let (mut at, mut all) = (0, Vec::new());
    for (i, (body, stands)) in made.iter().enumerate() {
        let theirs = (proved.lent[8 + i].words()[0] as usize).min(room / COMMAND) * COMMAND;
        let open = stands.margins == Margins::Outside && at + theirs <= room;
        all.push(if open { bytes[at..at + theirs].to_vec() } else { body.clone() });
        at += all[i].len();
    }
    all
}

/// An asking on both sides, with the ticket and the part that it gives, if any.
pub fn ask_of(r: &Replacement, edits: u32) -> (Judged, Option<(Ticket, Vec<u8>)>) {
    let word = || Lent::room(1);
    let read = [Lent::bytes(&r.recorded), Lent::bytes(&r.fitted), Lent::bytes(&r.new.kinds), Lent::numbers(&r.new.numbers)];
    let call = Call {
        function: "ask_lap",
        arguments: vec![
            ("asking: tolerance", patterns(&[r.tolerance])),
            ("lap, edit number, room", vec![r.lap as u64, edits as u64, r.room as u64]),
            argument("recorded", &r.recorded),
            argument("fitted", &r.fitted),
            ("kinds", r.new.kinds.iter().map(|kind| *kind as u64).collect()),
            ("numbers", patterns(&r.new.numbers)),
        ],
        refusal: refusal(&ask_rows(r)),
        lent: [vec![Lent::byte_room(r.room, &[])], read.to_vec(), vec![word(), word(), word(), word(), word()]].concat(),
    };
    let (mut made, mut before) = (Vec::new(), Vec::new());
    let mut call = call.compare(
        |lent| proved_asking(r, edits, lent),
        |lent| {
            made = r.refits();
            before = lent.to_vec();
            asked(lent, r, edits, &made.iter().map(|lap| lap.0.clone()).collect::<Vec<_>>())
        },
    );
    if call.given.number != 0 {
        return (Judged { call, stands: None, open: false }, None);
    }
    let stands = made.iter().fold(Stands::UNTRIED, |all, lap| all.and(lap.1));
    let open = stands.margins == Margins::Outside && call.proved != call.given;
    let bodies = if open { taken(&call.proved, r.room, &made) } else { made.into_iter().map(|lap| lap.0).collect() };
    call.given.lent = asked(&before, r, edits, &bodies);
    (Judged { call, stands: Some(stands), open }, Some((ticket_of(r, edits, &bodies), bodies.concat())))
}

fn proved_asking(r: &Replacement, edits: u32, lent: &mut [Lent]) -> u32 {
    let buffer = lent[0].as_mut_ptr();
    let (recorded, fitted) = (lent[1].as_mut_ptr::<u8>(), lent[2].as_mut_ptr::<u8>());
    let (kinds, nums) = (lent[3].as_mut_ptr::<u8>(), lent[4].as_mut_ptr::<f64>());
    let (lap, tolerance, edit) = (lent[5].as_mut_ptr(), lent[6].as_mut_ptr(), lent[7].as_mut_ptr());
    let (count, next) = (lent[8].as_mut_ptr(), lent[9].as_mut_ptr());
    let (s, f, k, n) = (r.recorded.len(), r.fitted.len(), r.new.kinds.len(), r.new.numbers.len());
    unsafe {
        pz_ask_lap(
            recorded, s, fitted, f, edits, r.lap, kinds, k, nums, n, r.tolerance, buffer, r.room, lap, tolerance, edit,
            count, next,
        )
    }
}

// ---- committing

/// What a commit takes.
#[derive(Clone)]
pub struct Commit {
    pub ticket: Ticket,
    pub edits: u32,
    pub recorded: Vec<u8>,
    pub fitted: Vec<u8>,
    pub part: Vec<u8>,
    pub room: usize,
}

impl Commit {
    /// Whether the next lap is fitted again: "a lap number outside the file counts as without a next lap".
    fn next_too(&self) -> bool {
        let laps = laps_of(&self.recorded).unwrap_or_default();
        self.ticket.lap > 0 && laps.get(self.ticket.lap).is_some_and(carries_on)
    }

    /// "counts that do not add up to the buffer's commands, or are 0 for a lap that is refitted or not 0 for one that is not"
    fn miscounted(&self) -> bool {
        let Ticket { count, next, .. } = self.ticket;
        let adds_up = count.checked_add(next) == Some(self.part.len() / COMMAND);
        !adds_up || count == 0 || (next != 0) != self.next_too()
    }

    /// Row 4 of the part: "in the new lap's place, that part as replacement does", "a Bezier gives 4", "and a Move in the next lap's
    /// part 4".
    fn part_formed(&self) -> bool {
        let cut = (self.ticket.count.min(self.part.len() / COMMAND)) * COMMAND;
        let (own, next) = (laps::commands(&self.part[..cut]), laps::commands(&self.part[cut..]));
        let no_curve = |lap: &Commands| lap.kinds.iter().all(|kind| *kind != 3);
        let next_formed = next.kinds.is_empty() || (carries_on(&next) && laps::formed(&next, false));
        laps::formed(&own, self.ticket.lap <= 1) && next_formed && no_curve(&own) && no_curve(&next)
    }

    /// The part's commands, and those of the laps that stay.
    fn most(&self) -> usize {
        let stays = |place: &usize| place + 1 != self.ticket.lap && !(self.next_too() && *place == self.ticket.lap);
        let all = laps::bodies(&self.fitted).unwrap_or_default();
        let stay: usize = (0..all.len()).filter(stays).map(|place| all[place].len() / COMMAND).sum();
        stay + self.part.len() / COMMAND
    }

    fn rows(&self) -> Vec<Row> {
        let (recorded, fitted) = (laps_of(&self.recorded), laps_of(&self.fitted));
        let laps = recorded.as_deref().unwrap_or(&[]);
        let alike = recorded.is_some() && fitted.is_some_and(|fitted| fitted.len() == laps.len());
        let finite = laps::commands(&self.part).numbers.iter().all(|x| x.is_finite());
        let mut rows = vec![
            (12, self.ticket.edit != self.edits),
            (13, self.edits >= MOST_EDITS),
            (1, laps::short(&self.recorded) || laps::short(&self.fitted) || !self.part.len().is_multiple_of(COMMAND)),
            (2, laps::big(&self.recorded) || laps::big(&self.fitted)),
            table::too_many_commands(self.part.len() / COMMAND),
            (3, !alike || self.miscounted()),
            table::malformed(laps::all_formed(laps) && self.part_formed()),
            table::outside(laps.iter().all(laps::within) && finite),
            table::bad_tolerance(table::tolerance(self.ticket.tolerance)),
            (7, self.ticket.lap == 0 || self.ticket.lap > laps.len()),
        ];
        rows.extend(laps::size_rows(laps.len(), self.most() as f64, self.room));
        rows
    }

    /// "writes what replacement writes, that part as it stands being the lap's body"
    fn written(&self) -> Vec<u8> {
        let mut all: Vec<Vec<u8>> =
            laps::bodies(&self.fitted).expect("a table that was accepted").into_iter().map(<[u8]>::to_vec).collect();
        let (own, next) = self.part.split_at(self.ticket.count * COMMAND);
        all[self.ticket.lap - 1] = own.to_vec();
        if !next.is_empty() {
            all[self.ticket.lap] = next.to_vec();
        }
        laps::file(&all)
    }

    fn proved(&self, lent: &mut [Lent]) -> u32 {
        let (out, written, edits) = (lent[0].as_mut_ptr(), lent[1].as_mut_ptr(), lent[2].as_mut_ptr());
        let (recorded, fitted) = (lent[3].as_mut_ptr::<u8>(), lent[4].as_mut_ptr::<u8>());
        let (part, t) = (lent[5].as_mut_ptr::<u8>(), &self.ticket);
        let (s, f, p) = (self.recorded.len(), self.fitted.len(), self.part.len());
        unsafe {
            pz_commit_lap(
                t.lap, t.tolerance, t.edit, t.count, t.next, edits, recorded, s, fitted, f, part, p, out, self.room,
                written,
            )
        }
    }
}

/// A commit on both sides. "each accepted commit raises the edit number by 1".
pub fn commit_of(c: &Commit) -> Compared {
    let call = Call {
        function: "commit_lap",
        arguments: vec![
            ("commit: ticket", c.ticket.words()),
            ("edit number, room", vec![c.edits as u64, c.room as u64]),
            argument("recorded", &c.recorded),
            argument("fitted", &c.fitted),
            argument("part", &c.part),
        ],
        refusal: refusal(&c.rows()),
        lent: vec![
            Lent::byte_room(c.room, &[]),
            Lent::count(),
            half(&Lent::room(1), c.edits),
            Lent::bytes(&c.recorded),
            Lent::bytes(&c.fitted),
            Lent::bytes(&c.part),
        ],
    };
    call.compare(
        |lent| c.proved(lent),
        |before| {
            let bytes = c.written();
            let mut left = before.to_vec();
            left[0] = Lent::byte_room(c.room, &bytes);
            left[1] = before[1].written(&[bytes.len() as u64]);
            left[2] = half(&before[2], c.edits + 1);
            left
        },
    )
}

// ---- a session's files and tickets

/// A ticket with its part, and what it was asked for.
#[derive(Clone)]
struct Held {
    ticket: Ticket,
    part: Vec<u8>,
    asking: Replacement,
}

/// A call of a session, by what it takes; a replacement beside it is none.
pub enum Step {
    Ask(Replacement, u32),
    Commit(Commit),
}

/// The files, the session and the tickets that were given; what was called, and whether what document 02 says of calls together
/// holds so far.
struct Desk {
    recorded: Vec<u8>,
    fitted: Vec<u8>,
    edits: u32,
    tolerance: f64,
    held: Vec<Held>,
    served: Vec<Vec<u64>>,
    calls: Vec<Compared>,
    steps: Vec<Step>,
    laws: bool,
    /// Whether the fitted file is still the fit of the recorded one.
    fits: bool,
}

/// Labels by the number of an answer.
const ASKED: [&str; 10] = [
    "asking: done",
    "asking: refused 1",
    "asking: refused 2",
    "asking: refused 3",
    "asking: refused 4",
    "asking: refused 5",
    "asking: refused 6",
    "asking: refused 7",
    "asking: refused 8",
    "asking: refused 9",
];
const COMMITTED: [&str; 14] = [
    "commit: done",
    "commit: refused 1",
    "commit: refused 2",
    "commit: refused 3",
    "commit: refused 4",
    "commit: refused 5",
    "commit: refused 6",
    "commit: refused 7",
    "commit: refused 8",
    "commit: refused 9",
    "",
    "",
    "commit: refused 12",
    "commit: refused 13",
];

impl Desk {
    /// A recording and its fit, most often; a file that has none is drawn again seven times out of eight.
    fn new(draw: &mut Draw) -> Desk {
        let mut laps = laps::laps(draw);
        let mut tolerance = laps::tolerance_for(draw, &laps);
        let fit = |laps: &[Commands], tolerance| laps::proved_fit(&laps::recording(laps), tolerance, ROOM);
        while (laps.is_empty() || fit(&laps, tolerance).is_none()) && !draw.one_in(8) {
            draw.labels();
            laps = laps::laps(draw);
            tolerance = laps::tolerance_for(draw, &laps);
        }
        let (recorded, fit) = (laps::recording(&laps), fit(&laps, tolerance).filter(|_| !draw.one_in(8)));
        let fits = fit.is_some();
        let fitted = fit.unwrap_or_else(|| laps::fitted_for(draw, &laps, &recorded, tolerance));
        let edits = match draw.below(12) {
            0 => draw.edge(&[
                (MOST_EDITS - 2, "session: near its last edit"),
                (MOST_EDITS - 1, "session: near its last edit"),
                (MOST_EDITS, "session: past its last edit"),
                (u32::MAX, "session: past its last edit"),
            ]),
            _ => 0,
        };
        let (held, served, calls, steps) = (Vec::new(), Vec::new(), Vec::new(), Vec::new());
        Desk { recorded, fitted, edits, tolerance, held, served, calls, steps, laws: true, fits }
    }

    fn lap_count(&self) -> usize {
        laps_of(&self.recorded).map_or(0, |laps| laps.len())
    }

    /// A replacement in the files as they stand, now and then in a damaged one, with room for this share of what it needs.
    fn replacement(&self, draw: &mut Draw) -> Replacement {
        let (mut recorded, mut fitted) = (self.recorded.clone(), self.fitted.clone());
        damaged(draw, &mut recorded, &mut fitted);
        let new = laps::any_new_lap(draw);
        let lap = laps::number(draw, self.lap_count());
        let tolerance = if draw.one_in(6) { draw.tolerance() } else { self.tolerance };
        Replacement { recorded, fitted, lap, new, tolerance, room: ROOM }
    }

    fn ask(&mut self, draw: &mut Draw) {
        let mut r = self.replacement(draw);
        let most = r.own_most();
        r.room = room(draw, if most <= 800.0 { COMMAND * most as usize } else { 500 });
        let (judged, given) = ask_of(&r, self.edits);
        draw.label(ASKED[judged.call.given.number as usize]);
        self.calls.push(judged.labelled(draw));
        self.steps.push(Step::Ask(r.clone(), self.edits));
        if let Some((ticket, part)) = given {
            self.held.push(Held { ticket, part, asking: r });
        }
    }

    /// A replacement beside the session: the files change, the edit number does not.
    fn replace(&mut self, draw: &mut Draw) {
        let r = self.replacement(draw);
        let call = laps::replacement_of(&r).labelled(draw);
        if call.given.number == 0 && draw.flag() {
            draw.label("a replacement beside the session");
            let same_files = r.recorded == self.recorded && r.fitted == self.fitted;
            self.fits = self.fits && same_files && r.tolerance == self.tolerance;
            self.fitted = first_bytes(&call.given.lent[0], call.count() as usize);
            self.record(r.lap, &r.new);
        }
        self.calls.push(call);
    }

    /// Puts a lap into the recorded file.
    fn record(&mut self, lap: usize, new: &Commands) {
        let mut laps = laps_of(&self.recorded).expect("a file that was accepted");
        laps[lap - 1] = new.clone();
        self.recorded = laps::recording(&laps);
    }

    fn commit(&mut self, draw: &mut Draw) {
        let held = self.ticket(draw);
        let (mut ticket, mut part) = (held.ticket, held.part.clone());
        let (mut recorded, mut fitted) = (self.recorded.clone(), self.fitted.clone());
        match draw.below(16) {
            0..4 => forged(draw, &mut ticket, self.edits, self.lap_count()),
            4..8 => damaged_part(draw, &mut part, &mut ticket),
            8 | 9 => damaged(draw, &mut recorded, &mut fitted),
            10 => before_the_first(draw, &mut recorded, &mut ticket, &mut part),
            _ => {}
        }
        let mut c = Commit { ticket, edits: self.edits, recorded, fitted, part, room: ROOM };
        let full = 8 + 8 * self.lap_count() + COMMAND * c.most();
        c.room = room(draw, if c.most() <= 800 { full } else { 500 });
        let call = commit_of(&c);
        draw.label(COMMITTED[call.given.number as usize]);
        self.laws = self.laws && self.effect_holds(draw, &c, &held, &call) && self.serves_once(&c, &call);
        if call.given.number == 0 {
            self.store(&c, &held, &call);
        }
        self.calls.push(call);
        self.steps.push(Step::Commit(c));
    }

    /// One of the tickets that were given, most often the last; one that was made up where there is none.
    fn ticket(&self, draw: &mut Draw) -> Held {
        if self.held.is_empty() {
            draw.label("ticket: made up");
            let new = laps::any_new_lap(draw);
            let part = laps::body(&new);
            let ticket = Ticket {
                lap: laps::number(draw, self.lap_count()),
                tolerance: self.tolerance,
                edit: self.edits,
                count: new.kinds.len(),
                next: 0,
            };
            let (recorded, fitted) = (self.recorded.clone(), self.fitted.clone());
            let asking = Replacement { recorded, fitted, lap: ticket.lap, new, tolerance: ticket.tolerance, room: 0 };
            return Held { ticket, part, asking };
        }
        let last = self.held.len() - 1;
        let place = if draw.one_in(3) { draw.below(last + 1) } else { last };
        self.held[place].clone()
    }

    /// "Where they hold the bytes of the asking, asking and replacement accept, and neither 12 nor 13 is due, asking and then
    /// committing has the effect of replacement".
    fn effect_holds(&self, draw: &mut Draw, c: &Commit, held: &Held, call: &Compared) -> bool {
        let r = &held.asking;
        let asked = (&c.recorded, &c.fitted, &c.part, c.ticket.words());
        let same = asked == (&r.recorded, &r.fitted, &held.part, held.ticket.words()) && r.room > 0;
        if !same || c.ticket.edit != c.edits || c.edits >= MOST_EDITS {
            return true;
        }
        let Some(bytes) = proved_replacement(r, c.room) else { return true };
        draw.label("commit: as replacement");
        let left = &call.proved.lent;
        call.proved.number == 0
            && left[0] == Lent::byte_room(c.room, &bytes)
            && left[1].words() == [bytes.len() as u64]
            && left[2].words()[0] as u32 == c.edits + 1
    }

    /// "a ticket serves once, each call being given the last one's session"
    fn serves_once(&self, c: &Commit, call: &Compared) -> bool {
        call.proved.number != 0 || !self.served.contains(&c.ticket.words())
    }

    /// What an accepted commit leaves: the fitted file, the recorded one with the lap that was asked for, and one edit more.
    fn store(&mut self, c: &Commit, held: &Held, call: &Compared) {
        let as_asked = c.part == held.part && c.ticket.words() == held.ticket.words() && held.asking.room > 0;
        let same_files = c.recorded == self.recorded && c.fitted == self.fitted;
        let same_start = held.asking.recorded == self.recorded && c.ticket.tolerance == self.tolerance;
        self.fits = self.fits && as_asked && same_files && same_start;
        self.fitted = first_bytes(&call.given.lent[0], call.count() as usize);
        self.recorded = c.recorded.clone();
        if laps::formed(&held.asking.new, c.ticket.lap <= 1) && laps::within(&held.asking.new) {
            self.record(c.ticket.lap, &held.asking.new);
        }
        self.edits += 1;
        self.served.push(c.ticket.words());
    }

    /// A session whose every commit was as it was asked for leaves the fit of the file that is recorded by then.
    fn ends_fitted(&self, draw: &mut Draw) -> bool {
        let Some(fresh) = laps::proved_fit(&self.recorded, self.tolerance, ROOM).filter(|_| self.fits && self.edits > 0)
        else {
            return true;
        };
        draw.label("session: ends as a fresh fit");
        fresh == self.fitted
    }
}

/// The file that the proved replacement writes into so many bytes; nothing where it is refused.
fn proved_replacement(r: &Replacement, room: usize) -> Option<Vec<u8>> {
    let (mut out, mut count) = (vec![0; room], 0);
    let (s, f, k, n) = (r.recorded.len(), r.fitted.len(), r.new.kinds.len(), r.new.numbers.len());
    let (recorded, fitted) = (r.recorded.as_ptr(), r.fitted.as_ptr());
    let (kinds, nums) = (r.new.kinds.as_ptr(), r.new.numbers.as_ptr());
    // SAFETY: the lengths are those of the slices
    let number = unsafe {
        pz_replace_lap(recorded, s, fitted, f, r.lap, kinds, k, nums, n, r.tolerance, out.as_mut_ptr(), room, &mut count)
    };
    (number == 0).then(|| out[..count].to_vec())
}

// ---- what is wrong

/// Room for what is needed, or about that.
fn room(draw: &mut Draw, full: usize) -> usize {
    let more = draw.below(3_000);
    match draw.below(14) {
        0 => draw.labelled("room one byte short", full.saturating_sub(1)),
        1 => draw.labelled("room one command short", full.saturating_sub(COMMAND)),
        2 => draw.labelled("hardly any room", full.min(8)),
        3 | 4 => draw.labelled("room exactly full", full),
        _ => full + more,
    }
}

/// Now and then one of the files is damaged.
fn damaged(draw: &mut Draw, recorded: &mut Vec<u8>, fitted: &mut Vec<u8>) {
    if draw.one_in(10) {
        let file = if draw.flag() { recorded } else { fitted };
        laps::damage(draw, file);
    }
}

/// Lap 0 of a file whose first lap lacks its Move: what follows lap 0 is no next lap.
fn before_the_first(draw: &mut Draw, recorded: &mut [u8], t: &mut Ticket, part: &mut Vec<u8>) {
    draw.label("ticket: lap 0, and a first lap without its Move");
    let first = 8 + 8 * laps_of(recorded).map_or(0, |laps| laps.len());
    if let Some(kind) = recorded.get_mut(first) {
        *kind = 1;
    }
    (t.lap, t.next) = (0, 0);
    part.truncate(COMMAND * t.count);
}

/// Changes a field of a ticket, or two.
fn forged(draw: &mut Draw, t: &mut Ticket, edits: u32, laps: usize) {
    match draw.below(6) {
        0 => {
            draw.label("ticket: another lap");
            t.lap = draw.of(&[0, 1, 2, t.lap.wrapping_add(1), t.lap.wrapping_sub(1), laps, laps + 1, usize::MAX]);
        }
        1 => {
            draw.label("ticket: another tolerance");
            t.tolerance = if draw.flag() { draw.tolerance() } else { draw.of(&[0.0, f64::NAN, 0.001, 1_000.0, 1e9]) };
        }
        2 => {
            draw.label("ticket: another edit number");
            t.edit = draw.of(&[edits, t.edit.wrapping_add(1), t.edit.wrapping_sub(1), u32::MAX, MOST_EDITS]);
        }
        3 => {
            draw.label("ticket: counts that wrap");
            (t.count, t.next) = draw.of(&[
                (usize::MAX, t.count + t.next + 1),
                (t.count + t.next + 1, usize::MAX),
                (usize::MAX, 0),
                (1 << 63, 1 << 63),
            ]);
        }
        4 => {
            draw.label("ticket: counts moved");
            let sum = t.count + t.next;
            t.count = draw.of(&[0, 1, sum.saturating_sub(1), sum]);
            t.next = sum.saturating_sub(t.count);
        }
        _ => {
            draw.label("ticket: counts that do not add up");
            (t.count, t.next) =
                draw.of(&[(t.count + 1, t.next), (t.count, t.next + 1), (0, t.next), (t.count, 0), (0, 0)]);
        }
    }
}

/// Changes a part; one in two times a count follows where commands are more or fewer.
fn damaged_part(draw: &mut Draw, part: &mut Vec<u8>, t: &mut Ticket) {
    let before = part.len() / COMMAND;
    if before == 0 {
        return;
    }
    let (command, number) = (COMMAND * draw.below(before), 1 + 8 * draw.below(9));
    match draw.below(10) {
        0 => {
            draw.label("part: one byte");
            let place = draw.below(part.len());
            part[place] ^= 1 << draw.below(8);
        }
        1 => {
            draw.label("part: not whole commands");
            let off = 1 + draw.below(COMMAND - 1);
            part.truncate(part.len() - off);
        }
        2 => {
            draw.label("part: its last command cut off");
            part.truncate(COMMAND * (before - 1));
        }
        3 => {
            draw.label("part: a command more");
            let last = part[COMMAND * (before - 1)..].to_vec();
            part.extend(last);
        }
        4 => {
            draw.label("part: a Bezier, or an unknown kind");
            part[command] = draw.of(&[3, 3, 4, 255]);
        }
        5 => {
            draw.label("part: a number that is not finite");
            let x = draw.of(&[f64::NAN, f64::INFINITY, f64::NEG_INFINITY]);
            part[command + number..command + number + 8].copy_from_slice(&x.to_le_bytes());
        }
        6 => {
            draw.label("part: a finite number past the domain");
            let (x, end) = (draw.of(&[1_000_000f64.next_up(), -1e300, f64::MAX]), 1 + 8 * draw.below(3));
            part[command + end..command + end + 8].copy_from_slice(&x.to_le_bytes());
        }
        7 => {
            draw.label("part: a Move, or none");
            part[command] = if part[command] == 0 { 1 } else { 0 };
        }
        8 => {
            draw.label("part: nothing");
            part.clear();
        }
        _ => {
            draw.label("part: above 800 commands, or just at it");
            let (many, last) = (draw.of(&[800, 801]), part[COMMAND * (before - 1)..].to_vec());
            (before..many).for_each(|_| part.extend(&last));
        }
    }
    let now = part.len() / COMMAND;
    if now != before && draw.flag() {
        let counted = if t.next > 0 { &mut t.next } else { &mut t.count };
        *counted = (*counted + now).saturating_sub(before);
    }
}

// ---- whole sessions

/// The calls of a drawn session.
pub fn steps(draw: &mut Draw) -> Vec<Step> {
    drawn(draw).steps
}

fn drawn(draw: &mut Draw) -> Desk {
    let mut desk = Desk::new(draw);
    for _ in 0..3 + draw.below(8) {
        match draw.below(10) {
            0 => desk.replace(draw),
            1..5 => desk.ask(draw),
            5..9 if desk.held.is_empty() => desk.ask(draw),
            _ => desk.commit(draw),
        }
    }
    desk.laws = desk.laws && desk.ends_fitted(draw);
    desk
}

fn session(draw: &mut Draw) -> Compared {
    let desk = drawn(draw);
    let side = |of: fn(&Compared) -> &Outcome, laws: bool| {
        let numbers = desk.calls.iter().map(|call| of(call).number as u64).chain([laws as u64]).collect::<Vec<_>>();
        let lent = desk.calls.iter().flat_map(|call| of(call).lent.clone());
        Outcome { number: 0, lent: [Lent::room(0).written(&numbers)].into_iter().chain(lent).collect() }
    };
    let (proved, given) = (side(|call| &call.proved, desk.laws), side(|call| &call.given, true));
    Compared { function: "session", arguments: desk.calls.into_iter().flat_map(|call| call.arguments).collect(), proved, given }
}
