//! Writes copies of the given thinning and fitting in which one statement each is another: the squared distance from the
//! endless line becomes that from the segment, in `simplify_polyline_3d` and in the Line test.
#[path = "../copies.rs"]
mod copies;
use copies::Edit;

/// The cross of a function's endless line, and the squared distance that is made of it, replaced.
const EDITS: [Edit; 2] = [
    Edit {
        file: "simplify.rs",
        function: "simplify_polyline_3d",
        from: "let cross = ",
        to: "/ chord_len_sq;",
        new: "let d_sq = crate::segment::square((p.x, p.y), p_start, p_end, chord_len_sq);",
    },
    Edit {
        file: "fitting.rs",
        function: "get_polyline_line_deviation",
        from: "let cross = ",
        to: "/ line_len_sq;",
        new: "let d_sq = crate::segment::square((p.x, p.y), (p_start.x, p_start.y), (p_end.x, p_end.y), line_len_sq);",
    },
];

fn main() {
    copies::write(&EDITS);
}
