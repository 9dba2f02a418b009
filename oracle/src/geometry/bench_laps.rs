//! The time of a file's fit and of a replacement, and of the fit of a course: the proved functions and the given Rust on
//! the same input, in one run. The Rust has the distance to the segment put in, as document 02, §4, asks of these calls; beside
//! the hill fit it has that in x, y and z, and no arc trial (§14).
//!
//! Beside the proved functions on files stands that Rust's `fit_arcs` of each lap, with the reading of the file into
//! its commands and the writing of the fitted file: once with document 01's rows, as the proved functions have them, and
//! once with no check but of mark and table; and of whole files that `fit_arcs` alone, of laps that are commands already.
use super::bench::{Output, Row, table};
use super::bezier::steps_needed;
use super::calls::{pz_fit_arcs, pz_fit_file, pz_fit_hills, pz_replace_lap};
use super::draw::Draw;
use super::laps::{bodies, body, file, recording};
use super::shapes::{noise, track};
use super::simplify::{Commands, parts};
use crate::random::Random;
use raygeo::geo::algo::fitting as given_fitting;
use raygeo::geo::types::{Command, Point3D};
use raygeo_segment::geo::algo::fitting;
use std::hint::black_box;

/// A fit of lap files: that Rust's of a lap, and the proved one of a file.
#[derive(Clone, Copy)]
struct Sides {
    given: fn(&[Command], f64) -> Vec<Command>,
    proved: unsafe extern "C" fn(*const u8, usize, f64, *mut u8, usize, *mut usize) -> u32,
}

const FLAT: Sides = Sides { given: fitting::fit_arcs, proved: pz_fit_file };
const HILLS: Sides = Sides { given: raygeo_hills::geo::algo::fitting::fit_arcs, proved: pz_fit_hills };

/// Lines to these places, the first a Move.
fn lines(plane: &[f64]) -> Commands {
    let kinds = (0..plane.len() / 2).map(|i| (i > 0) as u8).collect();
    let numbers = plane.chunks(2).flat_map(|p| [p[0], p[1], 0.0, 0.0, 0.0, 0.0, 0.0, 0.0, 0.0]).collect();
    Commands { kinds, numbers }
}

/// The commands of a lap's body, straight from its bytes.
fn read(body: &[u8]) -> Vec<Command> {
    let number = |one: &[u8], i: usize| f64::from_le_bytes(one[1 + 8 * i..9 + 8 * i].try_into().expect("eight bytes"));
    let point = |one: &[u8], i: usize| Point3D::new(number(one, i), number(one, i + 1), number(one, i + 2));
    body.chunks_exact(73)
        .map(|one| match one[0] {
            0 => Command::Move { end: point(one, 0) },
            1 => Command::Line { end: point(one, 0) },
            2 => Command::Arc { end: point(one, 0), center_offset: point(one, 3), normal: point(one, 6) },
            _ => Command::Bezier { end: point(one, 0), control1: point(one, 3), control2: point(one, 6) },
        })
        .collect()
}

/// A lap's commands with a Move in front: its own, or one that is put in and not written.
pub struct Lap {
    pub commands: Vec<Command>,
    pub put_in: bool,
}

/// The laps of a file. One that lacks its Move starts at the last end before it.
fn read_all(bodies: &[&[u8]]) -> Vec<Lap> {
    let mut last = Point3D::new(0.0, 0.0, 0.0);
    let mut laps = Vec::with_capacity(bodies.len());
    for body in bodies {
        let put_in = body[0] != 0;
        let mut commands = Vec::with_capacity(1 + body.len() / 73);
        commands.extend(put_in.then_some(Command::Move { end: last }));
        commands.extend(read(body));
        last = commands[commands.len() - 1].end_point();
        laps.push(Lap { commands, put_in });
    }
    laps
}

/// That Rust's fit of a lap, as the body of a file.
fn fitted_lap(sides: Sides, lap: &Lap, tolerance: f64) -> Vec<u8> {
    let fitted = (sides.given)(&lap.commands, tolerance);
    let mut bytes = Vec::with_capacity(73 * fitted.len());
    for (kind, points) in fitted.iter().skip(lap.put_in as usize).map(parts) {
        bytes.push(kind);
        points.iter().flat_map(|p| [p.x, p.y, p.z]).for_each(|x| bytes.extend(x.to_le_bytes()));
    }
    bytes
}

/// Document 01's rows 4 and 5 of a lap, and its most.
struct Looked {
    formed: bool,
    within: bool,
    most: f64,
}

fn look(body: &[u8], lap: &Lap, tolerance: f64) -> Looked {
    let near = |p: Point3D| [p.x, p.y, p.z].iter().all(|x| x.abs() <= 1_000_000.0);
    let finite = |p: Point3D| [p.x, p.y, p.z].iter().all(|x| x.is_finite());
    let (mut looked, mut last) = (Looked { formed: true, within: true, most: 0.0 }, lap.commands[0].end_point());
    for (i, (one, command)) in body.chunks_exact(73).zip(&lap.commands[lap.put_in as usize..]).enumerate() {
        let end = command.end_point();
        looked.formed &= (i == 0 || one[0] != 0) && one[0] < 4 && (one[0] > 1 || one[25..].iter().all(|b| *b == 0));
        looked.within &= near(end)
            && match command {
                Command::Move { .. } | Command::Line { .. } => true,
                Command::Arc { center_offset, normal, .. } => finite(*center_offset) && finite(*normal),
                Command::Bezier { control1, control2, .. } => near(*control1) && near(*control2),
            };
        looked.most += match command {
            Command::Bezier { control1, control2, .. } => {
                let numbers = [end, *control1, *control2, last].map(|p| [p.x, p.y, p.z]);
                steps_needed(numbers.as_flattened(), tolerance * 0.25)
            }
            _ => 1.0,
        };
        last = end;
    }
    looked
}

/// The laps of a file, or the number of the first of document 01's rows that its fit falls under, an output's room left out.
pub fn checked(bytes: &[u8], tolerance: f64) -> Result<Vec<Lap>, u32> {
    if bytes.len() < 8 {
        return Err(1);
    }
    if bytes.len() > 65_536 || u32::from_le_bytes([bytes[4], bytes[5], bytes[6], bytes[7]]) > 64 {
        return Err(2);
    }
    let raw = bodies(bytes).ok_or(3u32)?;
    let laps = read_all(&raw);
    let looked: Vec<Looked> = raw.iter().zip(&laps).map(|(body, lap)| look(body, lap, tolerance)).collect();
    let rows = [
        (4, laps.first().is_some_and(|lap| lap.put_in) || !looked.iter().all(|lap| lap.formed)),
        (5, !looked.iter().all(|lap| lap.within)),
        (6, !(0.001..=1_000.0).contains(&tolerance)),
        (8, looked.iter().map(|lap| lap.most).sum::<f64>() > 800.0),
    ];
    match rows.iter().find(|row| row.1) {
        Some(row) => Err(row.0),
        None => Ok(laps),
    }
}

fn given_fit(sides: Sides, bytes: &[u8], tolerance: f64, with_rows: bool) -> Vec<u8> {
    let laps = if with_rows {
        checked(bytes, tolerance).expect("an input that is accepted")
    } else {
        read_all(&bodies(bytes).expect("a right table"))
    };
    file(&laps.iter().map(|lap| fitted_lap(sides, lap, tolerance)).collect::<Vec<_>>())
}

/// The new commands come as a lap's body too, from which the rows read what the commands do not keep. No lap carries on here.
fn given_replacement(recorded: &[u8], fitted: &[u8], lap: usize, new: &[u8], tolerance: f64, checked: bool) -> Vec<u8> {
    let mut laps: Vec<Vec<u8>> = bodies(fitted).expect("a right table").iter().map(|body| body.to_vec()).collect();
    let fresh = read_all(&[new]).swap_remove(0);
    if checked {
        let looked = |body: &[u8], lap: &Lap| {
            let looked = look(body, lap, tolerance);
            assert!(looked.formed && looked.within, "an input that is accepted");
            looked.most
        };
        let raw = bodies(recorded).expect("a right table");
        for (body, lap) in raw.iter().zip(read_all(&raw)) {
            black_box(looked(body, &lap));
        }
        let others: usize = laps.iter().map(|body| body.len() / 73).sum::<usize>() - laps[lap - 1].len() / 73;
        let most = looked(new, &fresh) + others as f64;
        assert!((0.001..=1_000.0).contains(&tolerance) && most <= 800.0, "an input that is accepted");
    }
    laps[lap - 1] = fitted_lap(FLAT, &fresh, tolerance);
    file(&laps)
}

fn whole(name: String, bytes: Vec<u8>, tolerance: f64, checked: bool) -> Row<'static> {
    whole_by(FLAT, name, bytes, tolerance, checked)
}

fn whole_by(sides: Sides, name: String, bytes: Vec<u8>, tolerance: f64, checked: bool) -> Row<'static> {
    let (copy, mut out) = (bytes.clone(), vec![0; 58_920]);
    Row {
        name,
        given: Box::new(move || given_fit(sides, black_box(&copy), black_box(tolerance), checked).len()),
        proved: Box::new(move || {
            let mut count = 0;
            // SAFETY: the lengths are those of the file and of the output
            unsafe { (sides.proved)(bytes.as_ptr(), bytes.len(), tolerance, out.as_mut_ptr(), out.len(), &mut count) };
            count
        }),
    }
}

/// Beside that Rust's `fit_arcs` alone: the laps are read before, nothing is checked, and no byte is written.
fn bare(name: String, bytes: Vec<u8>, tolerance: f64) -> Row<'static> {
    let laps = read_all(&bodies(&bytes).expect("a right table"));
    let size = move |lap: &Lap| 8 + 73 * (fitting::fit_arcs(black_box(&lap.commands), black_box(tolerance)).len() - lap.put_in as usize);
    Row { given: Box::new(move || 8 + laps.iter().map(size).sum::<usize>()), ..whole(name, bytes, tolerance, true) }
}

fn replaced(name: String, recorded: Vec<u8>, lap: usize, new: Commands, tolerance: f64, checked: bool) -> Row<'static> {
    let fitted = given_fit(FLAT, &recorded, tolerance, true);
    let (r, f, n, mut out) = (recorded.clone(), fitted.clone(), body(&new), vec![0; 58_920]);
    Row {
        name,
        given: Box::new(move || {
            given_replacement(black_box(&r), black_box(&f), lap, &n, black_box(tolerance), checked).len()
        }),
        proved: Box::new(move || {
            let mut count = 0;
            // SAFETY: the lengths are those of the files, of the new commands and of the output
            unsafe {
                pz_replace_lap(
                    recorded.as_ptr(),
                    recorded.len(),
                    fitted.as_ptr(),
                    fitted.len(),
                    lap,
                    new.kinds.as_ptr(),
                    new.kinds.len(),
                    new.numbers.as_ptr(),
                    new.numbers.len(),
                    tolerance,
                    out.as_mut_ptr(),
                    out.len(),
                    &mut count,
                )
            };
            count
        }),
    }
}

fn course(name: String, c: Commands, tolerance: f64) -> Row<'static> {
    let (data, mut out) = (c.given(), Output::new(c.kinds.len()));
    Row {
        name,
        given: Box::new(move || fitting::fit_arcs(black_box(&data), black_box(tolerance)).len()),
        proved: Box::new(move || {
            let (kinds, n, nums, size) = (c.kinds.as_ptr(), c.kinds.len(), c.numbers.as_ptr(), c.numbers.len());
            // SAFETY: the lengths are those of the commands
            out.count(|k, ks, x, xs, count| unsafe {
                pz_fit_arcs(kinds, n, nums, size, tolerance, k, ks, x, xs, count)
            })
        }),
    }
}

/// The same beside the given Rust with its own distance, that to the endless line, which makes other commands: neither is counted. So a
/// run of today can be held beside those of before document 02, §4, whose other side was that Rust.
fn course_by_lines(name: String, c: Commands, tolerance: f64) -> Row<'static> {
    let data = c.given();
    let Row { mut proved, .. } = course(String::new(), c, tolerance);
    let given = move || {
        black_box(given_fitting::fit_arcs(black_box(&data), black_box(tolerance)));
        0
    };
    let proved = move || {
        black_box(proved());
        0
    };
    Row { name, given: Box::new(given), proved: Box::new(proved) }
}

/// Full files: six laps with 800 commands, and the most laps, with twelve commands each.
pub fn full_files(draw: &mut Draw) -> [(&'static str, Vec<Commands>); 2] {
    let mut laps = |counts: &[usize]| counts.iter().map(|count| lines(&track(draw, *count, 4.0, 1.0))).collect();
    let six = laps(&[133, 133, 133, 133, 134, 134]);
    [("six laps, 800 commands", six), ("64 laps, 768 commands", laps(&[12; 64]))]
}

fn rows() -> Vec<Row<'static>> {
    let mut draw = Draw::new(Random::new(1));
    let mut rows = Vec::new();
    for count in [100, 800] {
        let c = lines(&track(&mut draw, count, 4.0, 1.0));
        for tolerance in [0.5, 2.0, 5.0] {
            rows.push(course(format!("fit_arcs, track of {count} points, {tolerance}"), c.clone(), tolerance));
            let name = format!("the same beside the Rust as given, {tolerance}");
            rows.push(course_by_lines(name, c.clone(), tolerance));
        }
    }
    // growth: one lap, and one of two laps replaced
    let lap = |draw: &mut Draw, count: usize| lines(&track(draw, count, 4.0, 1.0));
    for count in [100, 200, 400, 700] {
        let (one, other) = (lap(&mut draw, count), lap(&mut draw, 100));
        rows.push(whole(format!("file of one lap, {count} commands, 2"), recording(&[one.clone()]), 2.0, true));
        let (two, new) = (recording(&[one, other]), lap(&mut draw, count));
        rows.push(replaced(format!("lap of {count} commands replaced, one of two, 2"), two, 1, new, 2.0, true));
    }
    let [(_, six), (_, short)] = full_files(&mut draw);
    let (bytes, new) = (recording(&six), lines(&track(&mut draw, 133, 4.0, 1.0)));
    for (checked, how) in [(true, ""), (false, ", Rust without checks")] {
        for tolerance in [0.5, 2.0, 5.0] {
            let name = format!("file of six laps, 800 commands, {tolerance}{how}");
            rows.push(whole(name, bytes.clone(), tolerance, checked));
            let name = format!("lap of 133 commands replaced in it, {tolerance}{how}");
            rows.push(replaced(name, bytes.clone(), 3, new.clone(), tolerance, checked));
        }
        rows.push(whole(format!("file of 64 laps, 768 commands, 2{how}"), recording(&short), 2.0, checked));
    }
    let one = recording(&[lines(&track(&mut draw, 800, 4.0, 1.0))]);
    for tolerance in [0.1, 0.5, 2.0, 5.0] {
        for (name, file) in [("six laps, 800", &bytes), ("64 laps, 768", &recording(&short)), ("one lap, 800", &one)] {
            rows.push(whole(format!("file of {name} commands, {tolerance}, all"), file.clone(), tolerance, true));
            rows.push(bare(format!("file of {name} commands, {tolerance}, beside fit_arcs alone"), file.clone(), tolerance));
        }
    }
    rows
}

/// A lap over hills: a track with a climb of a quarter of a metre a point, on and off, and a receiver's noise.
fn over_hills(draw: &mut Draw, count: usize) -> Commands {
    let mut lap = lines(&track(draw, count, 4.0, 1.0));
    for (i, nine) in lap.numbers.chunks_exact_mut(9).enumerate() {
        nine[2] = 350.0 + 0.25 * (i % 80).abs_diff(40) as f64 + noise(draw, 0.3);
    }
    lap
}

fn hill_rows() -> Vec<Row<'static>> {
    let mut draw = Draw::new(Random::new(1));
    let mut rows = Vec::new();
    for count in [100, 200, 400, 700] {
        let bytes = recording(&[over_hills(&mut draw, count)]);
        rows.push(whole_by(HILLS, format!("hills, one lap of {count} commands, 2"), bytes, 2.0, true));
    }
    let mut laps = |counts: &[usize]| recording(&counts.iter().map(|n| over_hills(&mut draw, *n)).collect::<Vec<_>>());
    let (six, short) = (laps(&[133, 133, 133, 133, 134, 134]), laps(&[12; 64]));
    for (checked, how) in [(true, ""), (false, ", Rust without checks")] {
        for tolerance in [0.5, 2.0, 5.0] {
            let name = format!("hills, six laps, 800 commands, {tolerance}{how}");
            rows.push(whole_by(HILLS, name, six.clone(), tolerance, checked));
        }
        rows.push(whole_by(HILLS, format!("hills, 64 laps, 768 commands, 2{how}"), short.clone(), 2.0, checked));
    }
    rows
}

/// Prints the table of the hill fit, and answers whether both sides made as many bytes of each input.
pub fn hills() -> bool {
    table("made", hill_rows())
}

/// Prints the table, and answers whether both sides made as many commands or bytes of each input.
pub fn run() -> bool {
    table("made", rows())
}
