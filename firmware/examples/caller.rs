//! A Rust caller: the archive's functions behind safe ones.
//!     caller TOLERANCE < recorded.laps > fitted.laps
//! Why they are safe: a slice's pointer is valid for its length and aligned, an empty one's is not read; an output is lent by `&mut`,
//! so it overlaps nothing else; the functions keep no pointer, and any contents are allowed.
use std::io::{self, Read, Write};

mod raw {
    unsafe extern "C" {
        pub safe fn pz_version() -> u32;
        pub fn pz_fit_file(
            recorded: *const u8,
            recorded_bytes: usize,
            tolerance: f64,
            out: *mut u8,
            out_bytes: usize,
            count: *mut usize,
        ) -> u32;
        pub fn pz_simplify_polyline_3d(
            points: *const f64,
            points_length: usize,
            tolerance: f64,
            out: *mut f64,
            out_length: usize,
            count: *mut usize,
        ) -> u32;
    }
}

/// The header's PZ_VERSION for which these declarations were written.
const VERSION: u32 = 1 << 16;

/// The greatest fitted file, PZ_MOST_OUTPUT_BYTES.
const MOST_OUTPUT_BYTES: usize = 58_920;

/// The number of a refusal.
#[derive(Debug, PartialEq)]
pub struct Refused(pub u32);

fn done(answer: u32, count: usize) -> Result<usize, Refused> {
    if answer == 0 { Ok(count) } else { Err(Refused(answer)) }
}

/// Fits each lap of a recorded file; answers the bytes that it wrote at the front of `out`.
pub fn fit_file(recorded: &[u8], tolerance: f64, out: &mut [u8]) -> Result<usize, Refused> {
    let mut count = 0;
    // SAFETY: see above
    let answer = unsafe {
        raw::pz_fit_file(recorded.as_ptr(), recorded.len(), tolerance, out.as_mut_ptr(), out.len(), &mut count)
    };
    done(answer, count)
}

/// Thins points; answers those that it wrote at the front of `out`. A point is an array, so no list is not whole.
pub fn simplify<'a>(points: &[[f64; 3]], tolerance: f64, out: &'a mut [[f64; 3]]) -> Result<&'a [[f64; 3]], Refused> {
    let (from, to) = (points.as_flattened(), out.as_flattened_mut());
    let mut count = 0;
    // SAFETY: see above
    let answer = unsafe {
        raw::pz_simplify_polyline_3d(from.as_ptr(), from.len(), tolerance, to.as_mut_ptr(), to.len(), &mut count)
    };
    done(answer, count).map(|kept| &out[..kept])
}

/// A straight is thinned to its ends; nothing to nothing; and without room the call is refused, by 9.
fn points_are_thinned() -> bool {
    let straight = [[0.0, 0.0, 0.0], [10.0, 0.0, 0.0], [20.0, 0.0, 0.0]];
    let mut out = [[0.0; 3]; 3];
    simplify(&straight, 0.5, &mut out) == Ok(&[straight[0], straight[2]])
        && simplify(&[], 0.5, &mut []) == Ok(&[])
        && simplify(&straight, 0.5, &mut out[..2]) == Err(Refused(9))
}

fn main() -> io::Result<()> {
    assert_eq!(raw::pz_version(), VERSION);
    assert!(points_are_thinned());
    let tolerance = std::env::args().nth(1).and_then(|word| word.parse().ok()).expect("a tolerance");
    let mut recorded = Vec::new();
    io::stdin().read_to_end(&mut recorded)?;
    let mut out = [0; MOST_OUTPUT_BYTES];
    match fit_file(&recorded, tolerance, &mut out) {
        Ok(count) => io::stdout().write_all(&out[..count]),
        Err(Refused(number)) => {
            eprintln!("refused, {number}");
            std::process::exit(1)
        }
    }
}
