//! The measure that document 02, §4, puts in the place of the distance to the endless line.

/// The squared distance of a point from the segment between two others, in x and y, where their chord squared is 1e-12 or more:
/// "Clamp the foot's parameter dot/chord² to 0..1, and measure from the point found, start + parameter × (end − start) in each
/// coordinate". Each operation rounds once, in the order in which it stands here.
#[inline]
pub fn square(p: (f64, f64), start: (f64, f64), end: (f64, f64), chord_squared: f64) -> f64 {
    let chord = (end.0 - start.0, end.1 - start.1);
    let dot = (p.0 - start.0) * chord.0 + (p.1 - start.1) * chord.1;
    let parameter = (dot / chord_squared).clamp(0.0, 1.0);
    let foot = (start.0 + parameter * chord.0, start.1 + parameter * chord.1);
    let off = (p.0 - foot.0, p.1 - foot.1);
    off.0 * off.0 + off.1 * off.1
}
