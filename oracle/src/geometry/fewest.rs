//! The fewest straights (document 02, §10), beside a plain search of the request's words over the given line deviation, and of short
//! lists beside a search of all ways.
use super::bezier::words_of_triples;
use super::calls::pz_fewest_straights;
use super::draw::Draw;
use super::frame::{Call, Compared, Function};
use super::lent::{Lent, patterns};
use super::shapes::{points, raised, tolerance_for};
use super::simplify::{lengthen, triples};
use super::table::{self, refusal};
use raygeo::geo::algo::fitting::get_polyline_line_deviation;
use raygeo::geo::types::Point3D;

pub const FUNCTIONS: [Function; 1] = [fewest_straights];

pub const MOST_POINTS: usize = 256;

/// All ways of lists up to so many points are tried.
const SHORT: usize = 12;

/// The numbers of the points, a tolerance and a budget.
#[derive(Clone)]
pub struct Input {
    pub list: Vec<f64>,
    pub tolerance: f64,
    pub budget: u64,
}

/// The ends of the Lines as indices, the pairs tested, and the lower bound.
pub struct Best {
    pub ends: Vec<usize>,
    pub tested: u64,
    pub bound: usize,
}

// ---- the model

fn passes(points: &[Point3D], tolerance: f64, u: usize, v: usize) -> bool {
    get_polyline_line_deviation(points, u, v).0 < tolerance
}

/// "the recursive line-only cut"
fn cut(points: &[Point3D], tolerance: f64, lo: usize, hi: usize, ends: &mut Vec<usize>) {
    let (dist, index) = get_polyline_line_deviation(points, lo, hi);
    if dist < tolerance {
        ends.push(hi);
        return;
    }
    cut(points, tolerance, lo, index, ends);
    cut(points, tolerance, index, hi, ends);
}

fn cut_of(points: &[Point3D], tolerance: f64) -> Vec<usize> {
    let mut ends = Vec::new();
    cut(points, tolerance, 0, points.len() - 1, &mut ends);
    ends
}

fn traced(parent: &[usize], last: usize) -> Vec<usize> {
    let mut ends: Vec<usize> = std::iter::successors(Some(last), |v| Some(parent[*v])).take_while(|v| *v != 0).collect();
    ends.reverse();
    ends
}

/// "Search in layers": each is a list of its own, put into list order.
pub fn model(points: &[Point3D], tolerance: f64, budget: u64) -> Best {
    let last = points.len() - 1;
    let (mut reached, mut parent) = (vec![false; points.len()], vec![0; points.len()]);
    let (mut layer, mut tested, mut finished) = (vec![0], 0, 0);
    loop {
        let mut next = Vec::new();
        for &u in &layer {
            for v in u + 1..=last {
                if reached[v] {
                    continue;
                }
                if tested == budget {
                    return Best { ends: cut_of(points, tolerance), tested, bound: finished + 1 };
                }
                tested += 1;
                if passes(points, tolerance, u, v) {
                    (reached[v], parent[v]) = (true, u);
                    if v == last {
                        let ends = traced(&parent, last);
                        return Best { bound: ends.len(), ends, tested };
                    }
                    next.push(v);
                }
            }
        }
        next.sort_unstable();
        (layer, finished) = (next, finished + 1);
    }
}

/// The fewest Lines of all ways from u to the last point, each way tried.
fn fewest_from(points: &[Point3D], tolerance: f64, u: usize) -> usize {
    let last = points.len() - 1;
    if u == last {
        return 0;
    }
    let later = (u + 1..=last).filter(|v| passes(points, tolerance, u, *v));
    1 + later.map(|v| fewest_from(points, tolerance, v)).min().expect("neighbours pass")
}

/// What §10 says of an answer, tried on it.
fn holds(points: &[Point3D], input: &Input, best: &Best) {
    let pairs = (points.len() * (points.len() - 1) / 2) as u64;
    let starts = std::iter::once(&0).chain(&best.ends);
    assert!(starts.zip(&best.ends).all(|(u, v)| u < v && passes(points, input.tolerance, *u, *v)), "a way");
    assert!(best.tested <= input.budget && best.tested <= pairs, "the pairs tested");
    assert!(input.budget < pairs || best.bound == best.ends.len(), "bound and count are equal");
    if points.len() <= SHORT {
        let fewest = fewest_from(points, input.tolerance, 0);
        assert!(best.bound <= fewest && fewest <= best.ends.len(), "the fewest, {fewest}, lies between");
    }
}

fn refused(input: &Input, room: usize) -> u32 {
    let count = input.list.len() / 3;
    refusal(&[
        table::not_whole(input.list.len(), 3),
        table::not_whole(room, 3),
        (2, !(2..=MOST_POINTS).contains(&count)),
        table::outside(table::coordinates(&input.list)),
        table::bad_tolerance(table::tolerance(input.tolerance)),
        table::no_room(room / 3, count.saturating_sub(1)),
    ])
}

pub fn straights(input: &Input, room: usize) -> Compared {
    let Input { list, tolerance, budget } = input;
    let call = Call {
        function: "fewest_straights",
        arguments: vec![
            ("tolerance", patterns(&[*tolerance])),
            ("budget", vec![*budget]),
            ("points", patterns(list)),
            ("rooms", vec![room as u64]),
        ],
        refusal: refused(input, room),
        lent: vec![Lent::room(room), Lent::count(), Lent::count(), Lent::count(), Lent::numbers(list)],
    };
    call.compare(
        |lent| unsafe {
            let (out, count, tested) = (lent[0].as_mut_ptr(), lent[1].as_mut_ptr(), lent[2].as_mut_ptr());
            let (bound, points) = (lent[3].as_mut_ptr(), lent[4].as_mut_ptr::<f64>());
            pz_fewest_straights(points, list.len(), *tolerance, *budget, out, room, count, tested, bound)
        },
        |before| {
            let points = triples(list);
            let best = model(&points, *tolerance, *budget);
            holds(&points, input, &best);
            let ends: Vec<Point3D> = best.ends.iter().map(|i| points[*i]).collect();
            vec![
                before[0].written(&words_of_triples(&ends)),
                before[1].written(&[best.ends.len() as u64]),
                before[2].written(&[best.tested]),
                before[3].written(&[best.bound as u64]),
                before[4].clone(),
            ]
        },
    )
}

// ---- inputs

fn how_many(draw: &mut Draw) -> usize {
    match draw.below(40) {
        0 => draw.edge(&[(0, "points: none or one"), (1, "points: none or one")]),
        1 => draw.edge(&[(MOST_POINTS, "points: the most"), (MOST_POINTS + 1, "points: one too many")]),
        2..=8 => 13 + draw.below(50),
        _ => 2 + draw.below(SHORT - 1),
    }
}

/// Budgets beside what the search needs, where the list is not refused.
fn budget_for(draw: &mut Draw, list: &[f64], tolerance: f64) -> u64 {
    let whole = Input { list: list.to_vec(), tolerance, budget: u64::MAX };
    if refused(&whole, 3 * list.len()) != 0 {
        return draw.below(4) as u64;
    }
    let points = triples(list);
    let need = model(&points, tolerance, u64::MAX);
    let worse = cut_of(&points, tolerance).len() > need.ends.len();
    draw.label(if worse { "the cut has more Lines than the fewest" } else { "the cut has the fewest Lines" });
    match draw.below(8) {
        0 => draw.below(need.tested as usize + 1) as u64,
        1 => (points.len() * (points.len() - 1) / 2) as u64,
        _ => draw.edge(&[
            (0, "budget: 0"),
            (1, "budget: 1"),
            (need.tested - 1, "budget: one less than needed"),
            (need.tested, "budget: as needed"),
            (need.tested + 1, "budget: one more than needed"),
            (u64::MAX, "budget: the greatest"),
        ]),
    }
}

fn fewest_straights(draw: &mut Draw) -> Compared {
    let count = how_many(draw);
    let flat = points(draw, count);
    let mut list = raised(&flat, draw);
    lengthen(draw, &mut list, 3);
    let tolerance = tolerance_for(draw, &list, 3);
    let budget = budget_for(draw, &list, tolerance);
    let most = 3 * count.saturating_sub(1);
    let room = match draw.below(12) {
        0 => most.saturating_sub(1 + draw.below(4)),
        1 => most + draw.below(7),
        _ => most,
    };
    straights(&Input { list, tolerance, budget }, room)
}
