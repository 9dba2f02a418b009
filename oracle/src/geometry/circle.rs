//! The first part of fitting.rs: collinearity, both circle fits, the bisector projection, both deviations.
use super::bends;
use super::bezier::{triple, words_of_pairs};
use super::calls::*;
use super::draw::Draw;
use super::frame::{Call, Compared, Function};
use super::lent::{Lent, patterns};
use super::shapes::tolerance_for;
use super::simplify::{lengthen, triples};
use super::table::{self, Row, refusal};
use super::worst::{bound, worst_step};
use raygeo::geo::algo::fitting;
use raygeo::geo::types::Point;

pub const FUNCTIONS: [Function; 6] = [
    are_points_collinear_3d,
    fit_circle_to_3_points,
    fit_circle_to_points_3d,
    project_circle_center_to_bisector,
    get_polyline_line_deviation,
    get_polyline_arc_deviation,
];

/// A list of triples, now and then with part of one behind it.
pub fn drawn(draw: &mut Draw) -> Vec<f64> {
    let count = bends::count(draw);
    let mut list = bends::points(draw, count);
    lengthen(draw, &mut list, 3);
    list
}

/// The rows that a list of triples alone can fall under, with others in number order behind them.
pub fn rows(list: &[f64], others: &[Row]) -> Vec<Row> {
    let mut rows = vec![
        table::not_whole(list.len(), 3),
        table::too_many_points(list.len() / 3),
        table::outside(table::coordinates(list)),
    ];
    rows.extend(others);
    rows
}

// ---- are_points_collinear_3d

/// A tolerance at which points are in doubt: 0.01 exactly off a line, or as far as one of them.
fn are_points_collinear_3d(draw: &mut Draw) -> Compared {
    let list = drawn(draw);
    let tolerance = tolerance_for(draw, &list, 3);
    collinear_of(&list, tolerance, draw.flag())
}

pub fn collinear_of(list: &[f64], tolerance: f64, start: bool) -> Compared {
    let call = Call {
        function: "are_points_collinear_3d",
        arguments: vec![("tolerance", patterns(&[tolerance])), ("points", patterns(list))],
        refusal: refusal(&rows(list, &[table::bad_tolerance(table::tolerance(tolerance))])),
        lent: vec![Lent::flag(start), Lent::numbers(list)],
    };
    call.compare(
        |lent| unsafe {
            let (flag, points) = (lent[0].as_mut_ptr(), lent[1].as_mut_ptr::<f64>());
            pz_are_points_collinear_3d(points, list.len(), tolerance, flag)
        },
        |before| {
            let is = fitting::are_points_collinear_3d(&triples(list), tolerance);
            vec![before[0].flagged(is), before[1].clone()]
        },
    )
}

// ---- fit_circle_to_3_points, fit_circle_to_points_3d

/// Three points, now and then so flat that the area or the turn is about its limit.
fn fit_circle_to_3_points(draw: &mut Draw) -> Compared {
    let mut p = bends::points(draw, 3);
    if draw.one_in(6) {
        draw.label("an area about 1e-9");
        let height = draw.of(&[1e-9, 0.5e-9, 2e-9, 1e-9f64.next_down(), 1e-9f64.next_up(), 0.25e-9]);
        p = vec![0.0, 0.0, 0.0, draw.of(&[0.5, 1.0]), draw.signed(height), 0.0, draw.of(&[1.0, 2.0]), 0.0, 0.0];
    }
    through_of(&p, draw.flag())
}

/// What stands in a flag and behind it once a circle was found or not.
fn found(before: &[Lent], circle: Option<Vec<u64>>) -> Vec<Lent> {
    let mut left = before.to_vec();
    left[0] = before[0].flagged(circle.is_some());
    left[1] = before[1].written(&circle.unwrap_or_default());
    left
}

pub fn through_of(p: &[f64], start: bool) -> Compared {
    let call = Call {
        function: "fit_circle_to_3_points",
        arguments: vec![("points", patterns(p))],
        refusal: refusal(&[table::outside(table::coordinates(p))]),
        lent: vec![Lent::flag(start), Lent::room(3)],
    };
    call.compare(
        |lent| unsafe {
            let (flag, answer) = (lent[0].as_mut_ptr(), lent[1].as_mut_ptr());
            pz_fit_circle_to_3_points(p[0], p[1], p[2], p[3], p[4], p[5], p[6], p[7], p[8], flag, answer)
        },
        |before| {
            let circle = fitting::fit_circle_to_3_points(triple(p, 0), triple(p, 1), triple(p, 2));
            found(before, circle.map(|(centre, radius)| patterns(&[centre.x, centre.y, radius])))
        },
    )
}

/// Points, now and then exactly 0.01 off a line, or as far from where the ends meet.
fn fit_circle_to_points_3d(draw: &mut Draw) -> Compared {
    let mut list = drawn(draw);
    if draw.one_in(12) {
        draw.label("points 0.01 off a line or where the ends meet");
        let off = draw.of(&[0.01, 0.01, 0.01f64.next_down(), 0.01f64.next_up()]);
        let end = draw.of(&[0.0, 0.0, 1.0, 2.0]);
        list = vec![0.0, 0.0, 0.0, 0.0, off, 1.0, if end > 0.0 { 0.5 } else { off / 2.0 }, 0.0, 2.0, end, 0.0, 3.0];
    }
    circle_of(&list, draw.flag())
}

pub fn circle_of(list: &[f64], start: bool) -> Compared {
    let call = Call {
        function: "fit_circle_to_points_3d",
        arguments: vec![("points", patterns(list))],
        refusal: refusal(&rows(list, &[])),
        lent: vec![Lent::flag(start), Lent::room(4), Lent::numbers(list)],
    };
    call.compare(
        |lent| unsafe {
            let (flag, answer, points) = (lent[0].as_mut_ptr(), lent[1].as_mut_ptr(), lent[2].as_mut_ptr::<f64>());
            pz_fit_circle_to_points_3d(points, list.len(), flag, answer)
        },
        |before| {
            let circle = fitting::fit_circle_to_points_3d(&triples(list));
            found(before, circle.map(|(centre, radius, error)| patterns(&[centre.x, centre.y, radius, error])))
        },
    )
}

// ---- project_circle_center_to_bisector

/// A chord, now and then one whose square is about its limit, and a centre.
fn project_circle_center_to_bisector(draw: &mut Draw) -> Compared {
    let mut chord = bends::points(draw, 2);
    if draw.one_in(6) {
        draw.label("a chord squared of 1e-12, or just beside it");
        let x = draw.of(&[1e-6, 1e-6f64.next_down(), 1e-6f64.next_up(), 0.0]);
        chord = vec![0.0, 0.0, 0.0, x, 0.0, 1.0];
    }
    let centre = draw.centre(&chord);
    bisector_of(&chord, centre)
}

pub fn bisector_of(p: &[f64], centre: [f64; 2]) -> Compared {
    let call = Call {
        function: "project_circle_center_to_bisector",
        arguments: vec![("points", patterns(p)), ("centre", patterns(&centre))],
        refusal: refusal(&[table::outside(table::coordinates(p) && table::centre(&centre))]),
        lent: vec![Lent::room(2)],
    };
    let [x, y] = centre;
    call.compare(
        |lent| unsafe {
            let answer = lent[0].as_mut_ptr();
            pz_project_circle_center_to_bisector(p[0], p[1], p[2], p[3], p[4], p[5], x, y, answer)
        },
        |before| {
            let moved = fitting::project_circle_center_to_bisector(triple(p, 0), triple(p, 1), Point::new(x, y));
            vec![before[0].written(&words_of_pairs(&[moved]))]
        },
    )
}

// ---- get_polyline_line_deviation

/// Two indices of so many points: inside, equal, the other way round, at the count, far outside.
pub fn range(draw: &mut Draw, count: usize) -> [usize; 2] {
    let inside = count.max(1);
    match draw.below(9) {
        0 => {
            draw.label("start and end equal");
            [draw.below(inside); 2]
        }
        1 => {
            draw.label("start behind end");
            let (a, b) = (draw.below(inside), draw.below(inside));
            [a.max(b), a.min(b)]
        }
        2 => {
            draw.label("end outside");
            [draw.below(inside), count + draw.below(3)]
        }
        3 => {
            draw.label("start outside");
            [count + draw.below(2), draw.of(&[0, count, count + 1, usize::MAX])]
        }
        4 | 5 => {
            draw.label("the whole list");
            [0, count.saturating_sub(1)]
        }
        _ => {
            let (a, b) = (draw.below(inside), draw.below(inside));
            [a.min(b), a.max(b)]
        }
    }
}

fn get_polyline_line_deviation(draw: &mut Draw) -> Compared {
    let list = drawn(draw);
    let range = range(draw, list.len() / 3);
    line_of(&list, range)
}

pub fn line_of(list: &[f64], [start, end]: [usize; 2]) -> Compared {
    let count = list.len() / 3;
    let call = Call {
        function: "get_polyline_line_deviation",
        arguments: vec![("range", vec![start as u64, end as u64]), ("points", patterns(list))],
        refusal: refusal(&rows(list, &[table::bad_index(start, count), table::bad_index(end, count)])),
        lent: vec![Lent::room(1), Lent::count(), Lent::numbers(list)],
    };
    call.compare(
        |lent| unsafe {
            let (dist, index, points) = (lent[0].as_mut_ptr(), lent[1].as_mut_ptr(), lent[2].as_mut_ptr::<f64>());
            pz_get_polyline_line_deviation(points, list.len(), start, end, dist, index)
        },
        |before| {
            let (dist, index) = fitting::get_polyline_line_deviation(&triples(list), start, end);
            vec![before[0].written(&patterns(&[dist])), before[1].written(&[index as u64]), before[2].clone()]
        },
    )
}

// ---- get_polyline_arc_deviation

/// A circle for a list: often the one fitted to it, its centre moved to the bisector of its ends.
fn circle_for(draw: &mut Draw, list: &[f64]) -> ([f64; 2], f64) {
    let points = triples(list);
    let fitted = fitting::fit_circle_to_points_3d(&points);
    let ([x, y], radius) = match (draw.below(4), fitted) {
        (0, Some((centre, radius, _))) => ([centre.x, centre.y], radius),
        (1 | 2, Some((centre, _, _))) => {
            let moved = fitting::project_circle_center_to_bisector(
                points[0],
                points[points.len() - 1],
                Point::new(centre.x, centre.y),
            );
            ([moved.x, moved.y], Point::new(points[0].x, points[0].y).distance(moved))
        }
        _ => (draw.centre(list), draw.sized(-12, 20)),
    };
    (draw.centre_beside([x, y]), draw.radius(radius))
}

/// How the answers stand: their difference as a share of what document 01 allows.
pub fn share(compared: &Compared) -> f64 {
    let value = |i: u64| f64::from_bits(i);
    let [ours, theirs] = [&compared.proved, &compared.given].map(|side| value(side.lent[0].words()[0]));
    let radius = value(compared.arguments[0].1[2]);
    (ours - theirs).abs() / bound(radius)
}

fn get_polyline_arc_deviation(draw: &mut Draw) -> Compared {
    let list = drawn(draw);
    let (centre, radius) = circle_for(draw, &list);
    let exact = arc_exactly(&list, centre, radius);
    if exact.given.number == 0 {
        draw.label(match share(&exact) {
            0.0 => "difference: none",
            share if share <= 0.01 => "difference: up to a hundredth of what is allowed",
            share if share <= 0.1 => "difference: up to a tenth of what is allowed",
            share if share <= 1.0 => "difference: up to what is allowed",
            _ => "difference: more than is allowed",
        });
    }
    within(exact)
}

/// Both answers as they are.
pub fn arc_exactly(list: &[f64], centre: [f64; 2], radius: f64) -> Compared {
    let [x, y] = centre;
    let domain = table::coordinates(list) && table::centre(&centre) && table::radius(radius);
    let call = Call {
        function: "get_polyline_arc_deviation",
        arguments: vec![("circle", patterns(&[x, y, radius])), ("points", patterns(list))],
        refusal: refusal(&[
            table::not_whole(list.len(), 3),
            table::too_many_points(list.len() / 3),
            table::outside(domain),
        ]),
        lent: vec![Lent::room(1), Lent::count(), Lent::numbers(list)],
    };
    call.compare(
        |lent| unsafe {
            let (dist, index, points) = (lent[0].as_mut_ptr(), lent[1].as_mut_ptr(), lent[2].as_mut_ptr::<f64>());
            pz_get_polyline_arc_deviation(points, list.len(), x, y, radius, dist, index)
        },
        |before| {
            let (points, centre) = (triples(list), Point::new(x, y));
            let deviation = fitting::get_polyline_arc_deviation(&points, centre, radius);
            let index = worst_step(&points, centre, radius).counted_from(0) as u64;
            vec![before[0].written(&patterns(&[deviation])), before[1].written(&[index]), before[2].clone()]
        },
    )
}

/// Document 01 lets this function's deviation lie off the Rust's by 1e-9 and the radius's 1e-14th part: an answer within that
/// is what is expected.
fn within(mut compared: Compared) -> Compared {
    if compared.given.number == 0 && share(&compared) <= 1.0 {
        let ours = compared.proved.lent[0].words().to_vec();
        compared.given.lent[0] = compared.given.lent[0].written(&ours);
    }
    compared
}

pub fn arc_of(list: &[f64], centre: [f64; 2], radius: f64) -> Compared {
    within(arc_exactly(list, centre, radius))
}
