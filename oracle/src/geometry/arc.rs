//! The function of arc.rs.
use super::bezier::pairs;
use super::calls::pz_is_arc_clockwise;
use super::draw::Draw;
use super::frame::{Call, Compared, Function};
use super::lent::{Lent, patterns};
use super::table::{self, refusal};
use raygeo::geo::shape::arc;
use raygeo::geo::types::Point;

pub const FUNCTIONS: [Function; 1] = [is_arc_clockwise];

fn is_arc_clockwise(draw: &mut Draw) -> Compared {
    let list = draw.list();
    let centre = draw.centre(&list);
    direction_of(&list, centre, draw.flag())
}

/// The list is lent too, and must stay as it is.
pub fn direction_of(list: &[f64], centre: [f64; 2], start: bool) -> Compared {
    let call = Call {
        function: "is_arc_clockwise",
        arguments: vec![("centre", patterns(&centre)), ("points", patterns(list))],
        refusal: refusal(&[
            table::not_whole(list.len(), 2),
            table::too_many_points(list.len() / 2),
            table::outside(table::coordinates(list) && table::centre(&centre)),
            (7, list.len() / 2 == 0),
        ]),
        lent: vec![Lent::numbers(list), Lent::flag(start)],
    };
    call.compare(
        |lent| unsafe {
            let (points, clockwise) = (lent[0].as_mut_ptr::<f64>(), lent[1].as_mut_ptr());
            pz_is_arc_clockwise(points, list.len(), centre[0], centre[1], clockwise)
        },
        |before| {
            let clockwise = arc::is_arc_clockwise(&pairs(list), Point::new(centre[0], centre[1]));
            vec![before[0].clone(), before[1].flagged(clockwise)]
        },
    )
}
