//! A list of arguments, each with the machine's root: 16 bytes, two patterns, the lowest byte first.
use super::patterns::{class_at, pattern};
use crate::random::Random;
use std::io::{Result, Write};

/// Writes `count` records.
pub fn list(count: u64, seed: u64, out: &mut impl Write) -> Result<()> {
    let mut random = Random::new(seed);
    for index in 0..count {
        let x = pattern(class_at(index).0, &mut random);
        let root = f64::from_bits(x).sqrt();
        out.write_all(&x.to_le_bytes())?;
        out.write_all(&root.to_bits().to_le_bytes())?;
    }
    out.flush()
}
