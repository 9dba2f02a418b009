//! A stand-in for the crate glam, which is not given. It has what the given files need to compile, and no more.
//!
//! Three kinds of function:
//! - **stated**: document 01, "glam's forms", says in which order the operation rounds, and it is written so;
//! - **read**: document 01 states no form, and there is one plain reading: coordinate by coordinate, a length as the
//!   root of a dot product, a distance as the length of a difference;
//! - **not given**: no compared function reaches it, so it stops the run.
//!
//! Each function says which it is.
use std::ops::{Add, AddAssign, Div, Mul, Sub};

/// What stands for a form that is not given.
#[cold]
fn not_given(what: &str) -> ! {
    panic!("not given: glam's {what}")
}

#[derive(Clone, Copy, Debug, Default, PartialEq)]
pub struct DVec2 {
    pub x: f64,
    pub y: f64,
}

impl DVec2 {
    pub const ZERO: DVec2 = DVec2::new(0.0, 0.0);

    /// Read.
    pub const fn new(x: f64, y: f64) -> DVec2 {
        DVec2 { x, y }
    }

    /// Stated: a dot adds left to right.
    pub fn dot(self, v: DVec2) -> f64 {
        self.x * v.x + self.y * v.y
    }

    /// Stated: x×y' − y×x'.
    pub fn perp_dot(self, v: DVec2) -> f64 {
        self.x * v.y - self.y * v.x
    }

    /// Stated: a×(1−t) + b×t, in each coordinate.
    pub fn lerp(self, b: DVec2, t: f64) -> DVec2 {
        DVec2::new(self.x * (1.0 - t) + b.x * t, self.y * (1.0 - t) + b.y * t)
    }

    /// Read: the dot with itself.
    pub fn length_squared(self) -> f64 {
        self.dot(self)
    }

    /// Read: its root.
    pub fn length(self) -> f64 {
        self.length_squared().sqrt()
    }

    /// Read: of the difference.
    pub fn distance(self, v: DVec2) -> f64 {
        (self - v).length()
    }

    /// Read: of the difference. The square of a difference is that of its negative, so either order gives these bits.
    pub fn distance_squared(self, v: DVec2) -> f64 {
        (self - v).length_squared()
    }

    pub fn normalize(self) -> DVec2 {
        not_given("DVec2::normalize")
    }
}

#[derive(Clone, Copy, Debug, Default, PartialEq)]
pub struct DVec3 {
    pub x: f64,
    pub y: f64,
    pub z: f64,
}

impl DVec3 {
    pub const X: DVec3 = DVec3::new(1.0, 0.0, 0.0);
    pub const Y: DVec3 = DVec3::new(0.0, 1.0, 0.0);

    /// Read.
    pub const fn new(x: f64, y: f64, z: f64) -> DVec3 {
        DVec3 { x, y, z }
    }

    /// Stated: a dot adds left to right.
    pub fn dot(self, v: DVec3) -> f64 {
        self.x * v.x + self.y * v.y + self.z * v.z
    }

    /// Read: each coordinate is the difference of two products.
    pub fn cross(self, v: DVec3) -> DVec3 {
        DVec3::new(self.y * v.z - v.y * self.z, self.z * v.x - v.z * self.x, self.x * v.y - v.x * self.y)
    }

    /// Read: the dot with itself.
    pub fn length_squared(self) -> f64 {
        self.dot(self)
    }

    /// Read: its root.
    pub fn length(self) -> f64 {
        self.length_squared().sqrt()
    }

    /// Read: of the difference.
    pub fn distance(self, v: DVec3) -> f64 {
        (self - v).length()
    }

    /// Read.
    pub fn truncate(self) -> DVec2 {
        DVec2::new(self.x, self.y)
    }

    pub fn lerp(self, _: DVec3, _: f64) -> DVec3 {
        not_given("DVec3::lerp")
    }

    pub fn normalize(self) -> DVec3 {
        not_given("DVec3::normalize")
    }
}

pub trait Vec3Swizzles {
    fn xy(self) -> DVec2;
}

impl Vec3Swizzles for DVec3 {
    fn xy(self) -> DVec2 {
        not_given("DVec3::xy")
    }
}

/// Read: coordinate by coordinate.
impl Sub for DVec2 {
    type Output = DVec2;
    fn sub(self, v: DVec2) -> DVec2 {
        DVec2::new(self.x - v.x, self.y - v.y)
    }
}

/// Read: coordinate by coordinate.
impl Add for DVec3 {
    type Output = DVec3;
    fn add(self, v: DVec3) -> DVec3 {
        DVec3::new(self.x + v.x, self.y + v.y, self.z + v.z)
    }
}

/// Read: coordinate by coordinate.
impl Sub for DVec3 {
    type Output = DVec3;
    fn sub(self, v: DVec3) -> DVec3 {
        DVec3::new(self.x - v.x, self.y - v.y, self.z - v.z)
    }
}

/// Read: coordinate by coordinate.
impl Mul<f64> for DVec3 {
    type Output = DVec3;
    fn mul(self, k: f64) -> DVec3 {
        DVec3::new(self.x * k, self.y * k, self.z * k)
    }
}

/// Read: each coordinate is divided, and not multiplied by 1/k.
impl Div<f64> for DVec3 {
    type Output = DVec3;
    fn div(self, k: f64) -> DVec3 {
        DVec3::new(self.x / k, self.y / k, self.z / k)
    }
}

impl Add for DVec2 {
    type Output = DVec2;
    fn add(self, _: DVec2) -> DVec2 {
        not_given("sum of two DVec2")
    }
}

impl AddAssign for DVec2 {
    fn add_assign(&mut self, _: DVec2) {
        not_given("DVec2 +=")
    }
}

impl Mul<f64> for DVec2 {
    type Output = DVec2;
    fn mul(self, _: f64) -> DVec2 {
        not_given("DVec2 times a number")
    }
}

impl Mul<DVec2> for f64 {
    type Output = DVec2;
    fn mul(self, _: DVec2) -> DVec2 {
        not_given("number times a DVec2")
    }
}

impl Div<f64> for DVec2 {
    type Output = DVec2;
    fn div(self, _: f64) -> DVec2 {
        not_given("DVec2 by a number")
    }
}

/// Three columns.
#[derive(Clone, Copy, Debug, PartialEq)]
pub struct DMat3 {
    pub x_axis: DVec3,
    pub y_axis: DVec3,
    pub z_axis: DVec3,
}

impl DMat3 {
    /// Read.
    pub const fn from_cols(x_axis: DVec3, y_axis: DVec3, z_axis: DVec3) -> DMat3 {
        DMat3 { x_axis, y_axis, z_axis }
    }

    /// Stated: z-column · (x-column cross y-column).
    pub fn determinant(&self) -> f64 {
        self.z_axis.dot(self.x_axis.cross(self.y_axis))
    }

    /// Stated: it multiplies the cross products by 1/determinant. Read: which cross product is which row, and that the
    /// determinant is the one above.
    pub fn inverse(&self) -> DMat3 {
        let k = 1.0 / self.determinant();
        let rows = [
            self.y_axis.cross(self.z_axis) * k,
            self.z_axis.cross(self.x_axis) * k,
            self.x_axis.cross(self.y_axis) * k,
        ];
        DMat3::from_cols(
            DVec3::new(rows[0].x, rows[1].x, rows[2].x),
            DVec3::new(rows[0].y, rows[1].y, rows[2].y),
            DVec3::new(rows[0].z, rows[1].z, rows[2].z),
        )
    }
}

/// Read: the columns times the vector's coordinates, added left to right.
impl Mul<DVec3> for DMat3 {
    type Output = DVec3;
    fn mul(self, v: DVec3) -> DVec3 {
        self.x_axis * v.x + self.y_axis * v.y + self.z_axis * v.z
    }
}

#[derive(Clone, Copy, Debug, PartialEq)]
pub struct DMat4;

impl DMat4 {
    pub fn transform_point3(&self, _: DVec3) -> DVec3 {
        not_given("DMat4::transform_point3")
    }
}
