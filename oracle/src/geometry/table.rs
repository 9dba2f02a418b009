//! Document 01's domain and its table of causes, written once more and apart from the proved code: the refusals that a
//! call must give. A row is a number and whether the arguments fall under it; the first such row in number order decides.

pub type Row = (u32, bool);

/// The order of checks: that of the numbers, and document 02's rows where it puts them.
const ORDER: [u32; 12] = [12, 13, 1, 2, 3, 4, 5, 6, 7, 11, 8, 9];

fn place(row: &Row) -> usize {
    ORDER.iter().position(|number| *number == row.0).expect("a row of the tables")
}

/// The number of the first row that the arguments fall under, or 0. The rows stand in the order of checks.
pub fn refusal(rows: &[Row]) -> u32 {
    assert!(rows.is_sorted_by_key(place), "the table's rows stand in the order of checks");
    rows.iter().find(|row| row.1).map_or(0, |row| row.0)
}

/// Row 1: a slice of `count` numbers is not whole items of `width` numbers.
pub fn not_whole(count: usize, width: usize) -> Row {
    (1, !count.is_multiple_of(width))
}

/// Row 2: more points than the domain has.
pub fn too_many_points(points: usize) -> Row {
    (2, points > 2_048)
}

/// Row 1: the numbers are not nine for each kind.
pub fn not_commands(kinds: usize, numbers: usize) -> Row {
    (1, numbers != 9 * kinds)
}

/// Row 2: more commands than the domain has.
pub fn too_many_commands(commands: usize) -> Row {
    (2, commands > 800)
}

/// Row 2: a step count that is 0 or above the domain's.
pub fn bad_steps(steps: usize) -> Row {
    (2, steps == 0 || steps > 2_048)
}

/// Row 2: a depth above the domain's.
pub fn too_deep(depth: usize) -> Row {
    (2, depth > 10)
}

/// Row 4: commands that are not well formed.
pub fn malformed(all_formed: bool) -> Row {
    (4, !all_formed)
}

/// Row 5: a number outside the domain.
pub fn outside(all_within: bool) -> Row {
    (5, !all_within)
}

/// Row 6: a tolerance outside the domain.
pub fn bad_tolerance(within: bool) -> Row {
    (6, !within)
}

/// Row 7: an index that is not inside the points.
pub fn bad_index(index: usize, points: usize) -> Row {
    (7, index >= points)
}

/// Row 7: a range with steps that ends outside the points.
pub fn bad_range(start: usize, end: usize, points: usize) -> Row {
    (7, start < end && end >= points)
}

/// Row 8: the most of a course above the domain's.
pub fn too_much(most: f64) -> Row {
    (8, most > 800.0)
}

/// Row 9: the lent output holds less than the most.
pub fn no_room(room: usize, most: usize) -> Row {
    (9, room < most)
}

/// A NaN is in no range.
fn in_range(x: f64, least: f64, most: f64) -> bool {
    (least..=most).contains(&x)
}

/// Ends and controls: finite, at most 1,000,000 from zero.
pub fn coordinates(numbers: &[f64]) -> bool {
    numbers.iter().all(|x| in_range(*x, -1_000_000.0, 1_000_000.0))
}

/// A command's kind is known, and numbers that it does not use are +0, by their pattern.
pub fn formed(kind: u8, numbers: &[f64]) -> bool {
    match kind {
        0 | 1 => numbers[3..9].iter().all(|x| x.to_bits() == 0),
        2 | 3 => true,
        _ => false,
    }
}

/// A command's end is in the domain, and so are a Bezier's controls; an Arc's offset and normal are finite.
pub fn command(kind: u8, numbers: &[f64]) -> bool {
    match kind {
        2 => coordinates(&numbers[..3]) && numbers[3..].iter().all(|x| x.is_finite()),
        3 => coordinates(numbers),
        _ => coordinates(&numbers[..3]),
    }
}

/// A centre handed in: at most 1e12 from zero.
pub fn centre(numbers: &[f64]) -> bool {
    numbers.iter().all(|x| in_range(*x, -1e12, 1e12))
}

/// A radius: 0 to 1e12. −0 is 0.
pub fn radius(x: f64) -> bool {
    in_range(x, 0.0, 1e12)
}

/// A curve's parameter: 0 to 1. −0 is 0.
pub fn parameter(t: f64) -> bool {
    in_range(t, 0.0, 1.0)
}

/// A tolerance or a resolution: 0.001 to 1,000.
pub fn tolerance(x: f64) -> bool {
    in_range(x, 0.001, 1_000.0)
}

/// A squared tolerance: 1e-6 to 1,000,000.
pub fn tolerance_sq(x: f64) -> bool {
    in_range(x, 1e-6, 1_000_000.0)
}
