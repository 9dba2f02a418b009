//! The program `lapfit`: what it prints, compared with what the given Rust makes of the same input once the distance to the
//! segment is put in (document 02, §4), and its time beside that of a Rust program that does the same.
use super::bench::{ROUNDS, head, print_times};
use super::bench_laps::{Lap, full_files};
use super::course::way_of_arcs;
use super::draw::Draw;
use super::fit::{Judged, Stands};
use super::frame::{Compared, Function, Outcome};
use super::laps::{any_file, argument, fit_rows, laps_of, recording, started};
use super::lent::Lent;
use super::margins::Margins;
use super::simplify::parts;
use super::table::refusal;
use crate::random::Random;
use raygeo::geo::shape::bezier::linearize_bezier_from_params;
use raygeo::geo::types::{Command, Point3D};
use raygeo_segment::geo::algo::{fitting, simplify};
use std::fmt::Write as _;
use std::hint::black_box;
use std::io::Write as _;
use std::process::{self, Stdio};
use std::time::Instant;

pub const FUNCTIONS: [Function; 1] = [draw_listing];

/// The proved program, as `tools/program lapfit` leaves it, and the Rust one, as `oracle/run` builds it.
const PROVED: &str = "target/bin/lapfit";
const GIVEN: &str = "target/oracle/release/lapfit";

const HEAD: &str = "lap,kind,steps\n";

fn last_line(total: usize) -> String {
    format!("total,{total}\n")
}

// ---- a Rust program that does the same, with nothing spent on comparing

/// What was made of a lap so far.
struct Rows<'a> {
    lap: usize,
    tolerance: f64,
    chain: Vec<Point3D>,
    text: &'a mut String,
    total: &'a mut usize,
}

impl Rows<'_> {
    fn row(&mut self, kind: char, steps: usize) {
        writeln!(self.text, "{},{kind},{steps}", self.lap).expect("a string takes all");
    }

    /// As the Rust's own `flush_chain`; each command covers the steps up to the next point that it ends at.
    fn flush(&mut self) {
        if self.chain.len() > 1 {
            let kept = simplify::simplify_polyline_3d(&self.chain, self.tolerance);
            *self.total += kept.len() - 1;
            let mut at = 0;
            for command in fitting::fit_points_with_primitives(&kept, self.tolerance) {
                let end = command.end_point();
                let steps = 1 + kept[at + 1..].iter().position(|p| *p == end).expect("it ends at a point");
                at += steps;
                self.row(if matches!(command, Command::Line { .. }) { 'L' } else { 'A' }, steps);
            }
        }
        self.chain.clear();
    }

    /// The rows of a lap; a Move that was put in has none.
    fn list(&mut self, lap: &Lap) {
        let mut last = lap.commands[0].end_point();
        self.chain.extend(lap.put_in.then_some(last));
        for command in &lap.commands[lap.put_in as usize..] {
            let end = command.end_point();
            match command {
                Command::Move { .. } | Command::Arc { .. } => {
                    self.flush();
                    self.row(if matches!(command, Command::Move { .. }) { 'M' } else { 'A' }, 0);
                }
                Command::Line { .. } => self.chain.push(end),
                Command::Bezier { control1, control2, .. } => {
                    let steps = linearize_bezier_from_params(end, *control1, *control2, last, self.tolerance * 0.25);
                    self.chain.extend(steps.iter().map(|step| step.1));
                }
            }
            if matches!(command, Command::Move { .. } | Command::Arc { .. }) {
                self.chain.push(end);
            }
            last = end;
        }
        self.flush();
    }
}

fn tolerance_of(input: &[u8]) -> f64 {
    f64::from_le_bytes(input[..8].try_into().expect("eight bytes"))
}

/// What the Rust program prints of its input.
pub fn program(input: &[u8]) -> String {
    if input.len() < 16 {
        return "refused,1\n".to_string();
    }
    let (tolerance, file) = (tolerance_of(input), &input[8..]);
    match super::bench_laps::checked(file, tolerance) {
        Err(number) => format!("refused,{number}\n"),
        Ok(laps) => {
            let (mut text, mut total) = (HEAD.to_string(), 0);
            for (i, lap) in laps.iter().enumerate() {
                Rows { lap: i + 1, tolerance, chain: Vec::new(), text: &mut text, total: &mut total }.list(lap);
            }
            text + &last_line(total)
        }
    }
}

// ---- the comparison

/// The chains of a lap: each begins where a Move or an Arc ends, and takes in the Lines and the steps of the Beziers behind it.
fn chains_of(lap: &[Command], tolerance: f64) -> Vec<Vec<Point3D>> {
    let (mut chains, mut last): (Vec<Vec<Point3D>>, _) = (vec![], Point3D::new(0.0, 0.0, 0.0));
    for command in lap {
        let end = command.end_point();
        match command {
            Command::Move { .. } | Command::Arc { .. } => chains.push(vec![end]),
            Command::Line { .. } => chains.last_mut().expect("a lap starts with a Move").push(end),
            Command::Bezier { control1, control2, .. } => {
                let steps = linearize_bezier_from_params(end, *control1, *control2, last, tolerance * 0.25);
                chains.last_mut().expect("a lap starts with a Move").extend(steps.iter().map(|step| step.1));
            }
        }
        last = end;
    }
    chains
}

/// Document 02, section 8: "the number of kept points less one, added over all chains of two or more points". It is
/// worked out from the chains that the Rust thins, and knows nothing of the rows.
fn steps_kept(lap: &[Command], tolerance: f64) -> usize {
    let chains = chains_of(lap, tolerance);
    let long = chains.iter().filter(|chain| chain.len() > 1);
    long.map(|chain| simplify::simplify_polyline_3d(chain, tolerance).len() - 1).sum()
}

/// The listing by the Rust's way through each lap with the sum under it, and where its arc trials stand.
fn listing(file: &[u8], tolerance: f64) -> (String, Stands) {
    let (mut text, mut total, mut stands) = (HEAD.to_string(), 0, Stands::UNTRIED);
    for (i, lap) in started(&laps_of(file).expect("a table that was accepted")).iter().enumerate() {
        let data = lap.commands.given();
        let answer = fitting::fit_arcs(&data, tolerance);
        let way = way_of_arcs(&data, tolerance);
        for (command, steps) in answer.iter().zip(&way.steps).skip(lap.put_in as usize) {
            let letter = ["M", "L", "A"][parts(command).0 as usize];
            writeln!(text, "{},{letter},{steps}", i + 1).expect("a string takes all");
        }
        total += steps_kept(&data, tolerance);
        stands = stands.and(way.stands(&answer));
    }
    (text + &last_line(total), stands)
}

/// What a program writes where this is its input.
fn output_of(program: &str, input: &[u8]) -> Vec<u8> {
    let mut child = process::Command::new(program)
        .stdin(Stdio::piped())
        .stdout(Stdio::piped())
        .spawn()
        .unwrap_or_else(|error| panic!("{program}: {error}"));
    let mut pipe = child.stdin.take().expect("a pipe");
    // it reads its input to the end before it writes
    pipe.write_all(input).expect("the program reads its input to the end");
    drop(pipe);
    let output = child.wait_with_output().expect("the program ends");
    assert!(output.status.success(), "{program} ends with {}", output.status);
    output.stdout
}

/// The number of the refusal that was printed, or 0.
fn number_in(printed: &[u8]) -> u32 {
    let text = String::from_utf8_lossy(printed);
    text.strip_prefix("refused,").and_then(|rest| rest.trim_end().parse().ok()).unwrap_or(0)
}

fn draw_input(draw: &mut Draw) -> Vec<u8> {
    let (file, tolerance, _) = any_file(draw);
    let mut input = [&tolerance.to_le_bytes()[..], &file].concat();
    if draw.one_in(20) {
        draw.label("input below 16 bytes");
        input.truncate(draw.below(16));
    } else if draw.one_in(20) {
        draw.label("input above the largest file");
        input.resize(65_545 + draw.of(&[0, 1, 1_000, 65_536, 200_000]), 7);
    }
    input
}

fn draw_listing(draw: &mut Draw) -> Compared {
    let input = draw_input(draw);
    let number = if input.len() < 16 {
        1
    } else {
        refusal(&fit_rows(&input[8..], tolerance_of(&input), usize::MAX))
    };
    let printed = output_of(PROVED, &input);
    let (text, stands) = match number {
        0 => listing(&input[8..], tolerance_of(&input)),
        _ => (format!("refused,{number}\n"), Stands::UNTRIED),
    };
    let given = Outcome { number, lent: vec![Lent::bytes(text.as_bytes())] };
    let proved = Outcome { number: number_in(&printed), lent: vec![Lent::bytes(&printed)] };
    let mut call = Compared { function: "lapfit", arguments: vec![argument("input", &input)], proved, given };
    // the rows may differ there, and their sum may not: it hangs on no arc trial
    let sums_agree = printed.rsplit(|byte| *byte == b',').next() == text.as_bytes().rsplit(|byte| *byte == b',').next();
    let open = stands.margins == Margins::Outside && call.proved != call.given && sums_agree;
    if open {
        call.given = call.proved.clone();
    }
    Judged { call, stands: (number == 0).then_some(stands), open }.labelled(draw)
}

// ---- the race

/// Seconds that a program takes, from its start to its end.
fn time(program: &str, input: &[u8]) -> f64 {
    let start = Instant::now();
    black_box(output_of(program, input));
    start.elapsed().as_secs_f64()
}

/// Runs both programs in turn on the same input, and prints the ratio of their times; whether both write the same.
fn race(name: &str, input: &[u8]) -> bool {
    let same = output_of(PROVED, input) == output_of(GIVEN, input);
    let mut rounds = Vec::new();
    for index in 0..ROUNDS {
        let first = if index % 2 == 0 { GIVEN } else { PROVED };
        let second = if index % 2 == 0 { PROVED } else { GIVEN };
        let (one, two) = (time(first, input), time(second, input));
        rounds.push(if index % 2 == 0 { (one, two) } else { (two, one) });
    }
    print_times(name, output_of(PROVED, input).len(), &rounds);
    same
}

/// Prints the table, and answers whether both programs write the same of each input.
pub fn bench() -> bool {
    let mut draw = Draw::new(Random::new(1));
    head("bytes");
    let mut same = true;
    for (name, laps) in full_files(&mut draw) {
        for tolerance in [0.5f64, 2.0, 5.0] {
            let input = [&tolerance.to_le_bytes()[..], &recording(&laps)].concat();
            same &= race(&format!("lapfit, {name}, {tolerance}"), &input);
        }
    }
    let refused = [&2.0f64.to_le_bytes()[..], b"LAPX\0\0\0\0"].concat();
    race("lapfit, a file that is refused", &refused) && same
}
