//! The time of a fit: the proved functions and the given Rust on the same points, in one run.
use super::bench::{Output, Row, table};
use super::bezier::triple;
use super::calls::{pz_fit_points_recursive, pz_fit_points_with_primitives};
use super::draw::Draw;
use super::shapes::{raised, reversed, track, turn, zigzag};
use super::simplify::triples;
use crate::random::Random;
use raygeo::geo::algo::{fitting, simplify};
use std::hint::black_box;
use std::time::Instant;

/// The same points without those that thinning drops.
fn thinned(list: &[f64], tolerance: f64) -> Vec<f64> {
    simplify::simplify_polyline_3d(&triples(list), tolerance).iter().flat_map(|p| [p.x, p.y, p.z]).collect()
}

fn whole(name: String, list: Vec<f64>, tolerance: f64) -> Row<'static> {
    let (points, mut out) = (triples(&list), Output::new(list.len() / 3));
    Row {
        name: format!("fit_points_with_primitives {name}"),
        given: Box::new(move || fitting::fit_points_with_primitives(black_box(&points), black_box(tolerance)).len()),
        proved: Box::new(move || primitives(&list, tolerance, &mut out)),
    }
}

fn primitives(list: &[f64], tolerance: f64, out: &mut Output) -> usize {
    let (points, n) = (list.as_ptr(), list.len());
    let (worst, places) = out.worst();
    // SAFETY: the lengths are those of the lists
    out.count(|k, ks, x, xs, count| unsafe {
        pz_fit_points_with_primitives(points, n, tolerance, k, ks, x, xs, worst, places, count, &mut 0)
    })
}

/// The middle half of a list.
fn part(name: String, list: Vec<f64>, tolerance: f64) -> Row<'static> {
    let (points, mut out) = (triples(&list), Output::new(list.len() / 3));
    let (start, end) = (points.len() / 4, points.len() * 3 / 4);
    Row {
        name: format!("fit_points_recursive       {name}"),
        given: Box::new(move || {
            fitting::fit_points_recursive(black_box(&points), black_box(tolerance), start, end).len()
        }),
        proved: Box::new(move || recursive(&list, tolerance, [start, end], &mut out)),
    }
}

fn recursive(list: &[f64], tolerance: f64, [start, end]: [usize; 2], out: &mut Output) -> usize {
    let (points, n) = (list.as_ptr(), list.len());
    let (worst, places) = out.worst();
    // SAFETY: the lengths are those of the lists
    out.count(|k, ks, x, xs, count| unsafe {
        pz_fit_points_recursive(points, n, tolerance, start, end, k, ks, x, xs, worst, places, count)
    })
}

/// A quarter of a circle in equal steps: one arc trial, which passes.
fn quarter(count: usize) -> Vec<f64> {
    let (c, s) = turn(std::f64::consts::FRAC_PI_2 / (count - 1) as f64);
    let mut spoke = [36.8, 0.0];
    let mut list = Vec::with_capacity(2 * count);
    for _ in 0..count {
        list.extend(spoke);
        spoke = [c * spoke[0] - s * spoke[1], s * spoke[0] + c * spoke[1]];
    }
    list
}

fn rows() -> Vec<Row<'static>> {
    let mut draw = Draw::new(Random::new(1));
    let mut inputs = Vec::new();
    for count in [100, 200, 400, 800, 2_048] {
        let plane = track(&mut draw, count, 4.0, 1.0);
        let list = raised(&plane, &mut draw);
        for tolerance in [0.5, 2.0, 5.0] {
            let few = thinned(&list, tolerance);
            inputs.push((format!("track, {count} points, {tolerance}"), list.clone(), tolerance));
            inputs.push((format!("track, {count} points, {tolerance}, thinned to {}", few.len() / 3), few, tolerance));
        }
    }
    for count in [3, 10, 100, 800] {
        inputs.push((format!("quarter of a circle, {count} points"), raised(&quarter(count), &mut draw), 5.0));
    }
    for count in [800, 2_048] {
        inputs.push((format!("zigzag, {count} points"), raised(&zigzag(count, 1.0), &mut draw), 0.5));
        inputs.push((
            format!("zigzag, {count} points, falling"),
            raised(&reversed(&zigzag(count, 1.0)), &mut draw),
            0.5,
        ));
    }
    let whole = inputs.iter().map(|(name, list, tolerance)| whole(name.clone(), list.clone(), *tolerance));
    let part = inputs.iter().map(|(name, list, tolerance)| part(name.clone(), list.clone(), *tolerance));
    whole.chain(part).collect()
}

/// Runs the deepest zigzag in stacks of falling size, each in a process of its own, since one that is too small ends it.
fn stacks() -> bool {
    let program = std::env::current_exe().expect("the program's own path");
    let mut works = false;
    for kib in [2_048, 1_024, 512, 256, 128, 64, 32] {
        let ran = std::process::Command::new(&program)
            .args(["zigzag-in", &kib.to_string()])
            .stderr(std::process::Stdio::null())
            .output()
            .is_ok_and(|output| output.status.success());
        println!("zigzag of 2,048 points in a stack of {kib} KiB: {}", if ran { "ends" } else { "does not end" });
        works |= ran && kib == 2_048;
    }
    works
}

/// Fits the zigzag of 2,048 points, both ways, in a thread with a stack of so many KiB.
pub fn zigzag_in(kib: usize) -> bool {
    let work = || {
        for plane in [zigzag(2_048, 1.0), reversed(&zigzag(2_048, 1.0))] {
            let list: Vec<f64> = plane.chunks(2).flat_map(|p| [p[0], p[1], 0.0]).collect();
            let mut out = Output::new(2_048);
            let start = Instant::now();
            let count = primitives(&list, 0.5, &mut out);
            println!(
                "{count} commands in {:.3} s, the last to {:?}",
                start.elapsed().as_secs_f64(),
                triple(&list, 2_047)
            );
        }
    };
    let thread = std::thread::Builder::new().stack_size(kib * 1_024).spawn(work);
    thread.is_ok_and(|thread| thread.join().is_ok())
}

/// Prints the table, and answers whether both sides made as many commands of each input.
pub fn run() -> bool {
    let same = table("commands", rows());
    stacks() && same
}
