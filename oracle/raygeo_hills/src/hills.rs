//! The measure of document 02, §14: "thinning and line test use x, y and z, to the segment as in the out-and-back ticket". Each
//! operation rounds once, in the order in which it stands here.
use raygeo::geo::types::Point3D;

/// The squared distance of two points: of a chord's ends, or, where the chord squared is below 1e-12, of a point from the first.
#[inline]
pub fn apart(p: Point3D, q: Point3D) -> f64 {
    let (x, y, z) = (p.x - q.x, p.y - q.y, p.z - q.z);
    x * x + y * y + z * z
}

/// The squared distance of a point from the segment between two others, where their chord squared is 1e-12 or more. Document 02,
/// §4: "Clamp the foot's parameter dot/chord² to 0..1, and measure from the point found, start + parameter × (end − start) in each
/// coordinate".
#[inline]
pub fn square(p: Point3D, start: Point3D, end: Point3D, chord_squared: f64) -> f64 {
    let (x, y, z) = (end.x - start.x, end.y - start.y, end.z - start.z);
    let dot = (p.x - start.x) * x + (p.y - start.y) * y + (p.z - start.z) * z;
    let parameter = (dot / chord_squared).clamp(0.0, 1.0);
    let foot = Point3D::new(start.x + parameter * x, start.y + parameter * y, start.z + parameter * z);
    apart(p, foot)
}

/// Whether an arc is tried in a range: "in its cut rule both arc trials count as failed".
#[inline]
pub fn arc_trial(_sharp: bool, _closed: bool) -> bool {
    false
}
