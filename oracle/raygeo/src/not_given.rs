//! What the compiled files name, and no compared function reaches: each stops the run.
use crate::geo::types::{Point, Polygon, Rect};

#[cold]
fn stop(what: &str) -> ! {
    panic!("not given: {what}")
}

pub mod line {
    use super::*;

    pub fn get_line_segment_closest_point(_: Point, _: Point, _: f64, _: f64) -> (f64, Point, f64) {
        stop("line::get_line_segment_closest_point")
    }

    pub fn does_line_segment_intersect_rect(_: Point, _: Point, _: Rect) -> bool {
        stop("line::does_line_segment_intersect_rect")
    }
}

pub mod circle {
    use super::*;

    pub fn get_circle_circle_intersections(_: Point, _: f64, _: Point, _: f64) -> Vec<Point> {
        stop("circle::get_circle_circle_intersections")
    }
}

pub mod polygon {
    use super::*;

    pub fn is_point_inside_polygon(_: Point, _: &Polygon) -> bool {
        stop("polygon::is_point_inside_polygon")
    }
}

pub mod interp {
    use super::*;

    pub fn solve_quadratic(_: f64, _: f64, _: f64) -> (Option<f64>, Option<f64>) {
        stop("interp::solve_quadratic")
    }
}

pub mod geometry {
    /// Named as a field's type, and never made.
    #[derive(Clone, Debug)]
    pub struct Geometry;
}
