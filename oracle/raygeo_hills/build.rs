//! Writes copies of the given thinning and fitting in which height is measured and no arc is made: in `simplify_polyline_3d` and
//! in the Line test the chord squared, the distance where that is next to nothing and the distance elsewhere are those of
//! `src/hills.rs`, and both arc trials of the cut rule count as failed.
#[path = "../copies.rs"]
mod copies;
use copies::Edit;

const fn thinning(from: &'static str, to: &'static str, new: &'static str) -> Edit {
    Edit { file: "simplify.rs", function: "simplify_polyline_3d", from, to, new }
}

const fn line_test(from: &'static str, to: &'static str, new: &'static str) -> Edit {
    Edit { file: "fitting.rs", function: "get_polyline_line_deviation", from, to, new }
}

/// The trial of three points first, then that of all.
const ARC_TRIAL: Edit = Edit {
    file: "fitting.rs",
    function: "fit_points_recursive",
    from: "!is_sharp && ",
    to: "!is_closed_range",
    new: "crate::hills::arc_trial(is_sharp, is_closed_range)",
};

const EDITS: [Edit; 8] = [
    thinning("let chord_len_sq =", ";", "let chord_len_sq = crate::hills::apart(points[end], points[start]);"),
    thinning("let d_sq =", ";", "let d_sq = crate::hills::apart(*p, points[start]);"),
    thinning(
        "let cross = ",
        "/ chord_len_sq;",
        "let d_sq = crate::hills::square(*p, points[start], points[end], chord_len_sq);",
    ),
    line_test("let line_len_sq =", ";", "let line_len_sq = crate::hills::apart(p_end, p_start);"),
    line_test("let d_sq =", ";", "let d_sq = crate::hills::apart(*p, p_start);"),
    line_test("let cross = ", "/ line_len_sq;", "let d_sq = crate::hills::square(*p, p_start, p_end, line_len_sq);"),
    ARC_TRIAL,
    ARC_TRIAL,
];

fn main() {
    copies::write(&EDITS);
}
