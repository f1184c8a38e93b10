//! glam's names, scalar, in the order of the specification's 'Float leaves'. `chord_length` is from src/math/mod.rs.

use crate::branches::reach;
use std::ops::{Add, AddAssign, Div, Mul, Sub};

pub type Vector = Vec3;
pub type Rot = Quat;

#[derive(Clone, Copy, Debug, Default)]
pub struct Vec2 {
    pub x: f32,
    pub y: f32,
}

impl Vec2 {
    pub const ZERO: Vec2 = Vec2 { x: 0.0, y: 0.0 };
}

#[derive(Clone, Copy, Debug, Default)]
pub struct Vec3 {
    pub x: f32,
    pub y: f32,
    pub z: f32,
}

#[inline]
pub const fn vec3(x: f32, y: f32, z: f32) -> Vec3 {
    Vec3 { x, y, z }
}

impl Add for Vec3 {
    type Output = Vec3;
    #[inline]
    fn add(self, b: Vec3) -> Vec3 {
        vec3(self.x + b.x, self.y + b.y, self.z + b.z)
    }
}

impl AddAssign for Vec3 {
    #[inline]
    fn add_assign(&mut self, b: Vec3) {
        *self = *self + b;
    }
}

impl Sub for Vec3 {
    type Output = Vec3;
    #[inline]
    fn sub(self, b: Vec3) -> Vec3 {
        vec3(self.x - b.x, self.y - b.y, self.z - b.z)
    }
}

impl Sub<Vec3> for &Vec3 {
    type Output = Vec3;
    #[inline]
    fn sub(self, b: Vec3) -> Vec3 {
        *self - b
    }
}

impl Mul<f32> for Vec3 {
    type Output = Vec3;
    #[inline]
    fn mul(self, k: f32) -> Vec3 {
        vec3(self.x * k, self.y * k, self.z * k)
    }
}

impl Div<f32> for Vec3 {
    type Output = Vec3;
    #[inline]
    fn div(self, k: f32) -> Vec3 {
        vec3(self.x / k, self.y / k, self.z / k)
    }
}

impl Vec3 {
    pub const ZERO: Vec3 = vec3(0.0, 0.0, 0.0);

    #[inline]
    pub fn splat(x: f32) -> Vec3 {
        vec3(x, x, x)
    }

    #[inline]
    pub fn dot(self, b: Vec3) -> f32 {
        (self.x * b.x + self.y * b.y) + self.z * b.z
    }

    #[inline]
    pub fn cross(self, b: Vec3) -> Vec3 {
        vec3(
            self.y * b.z - b.y * self.z,
            self.z * b.x - b.z * self.x,
            self.x * b.y - b.x * self.y,
        )
    }

    #[inline]
    pub fn length_squared(self) -> f32 {
        self.dot(self)
    }

    #[inline]
    pub fn length(self) -> f32 {
        self.length_squared().sqrt()
    }

    #[inline]
    pub fn distance_squared(self, b: Vec3) -> f32 {
        (self - b).length_squared()
    }

    #[inline]
    pub fn clamp_length_max(self, max: f32) -> Vec3 {
        let length_sq = self.length_squared();
        if length_sq > max * max {
            reach!("velocity clamped");
            (self / length_sq.sqrt()) * max
        } else {
            reach!("velocity not clamped");
            self
        }
    }

    #[inline]
    pub fn reject_from_normalized(self, normal: Vec3) -> Vec3 {
        self - normal * self.dot(normal)
    }
}

#[derive(Clone, Copy, Debug)]
pub struct Quat {
    pub x: f32,
    pub y: f32,
    pub z: f32,
    pub w: f32,
}

#[inline]
pub const fn quat(x: f32, y: f32, z: f32, w: f32) -> Quat {
    Quat { x, y, z, w }
}

impl Default for Quat {
    #[inline]
    fn default() -> Quat {
        quat(0.0, 0.0, 0.0, 1.0)
    }
}

impl Quat {
    #[inline]
    pub fn xyz(self) -> Vec3 {
        vec3(self.x, self.y, self.z)
    }

    #[inline]
    pub fn dot(self, b: Quat) -> f32 {
        ((self.x * b.x + self.y * b.y) + self.z * b.z) + self.w * b.w
    }

    #[inline]
    pub fn inverse(self) -> Quat {
        quat(-self.x, -self.y, -self.z, self.w)
    }

    #[inline]
    pub fn chord_length(self) -> f32 {
        2.0 * self.xyz().length()
    }
}

impl Mul for Quat {
    type Output = Quat;
    #[inline]
    fn mul(self, b: Quat) -> Quat {
        let (x1, y1, z1, w1) = (self.x, self.y, self.z, self.w);
        let (x2, y2, z2, w2) = (b.x, b.y, b.z, b.w);
        quat(
            w1 * x2 + x1 * w2 + y1 * z2 - z1 * y2,
            w1 * y2 - x1 * z2 + y1 * w2 + z1 * x2,
            w1 * z2 + x1 * y2 - y1 * x2 + z1 * w2,
            w1 * w2 - x1 * x2 - y1 * y2 - z1 * z2,
        )
    }
}

impl Mul<Vec3> for Quat {
    type Output = Vec3;
    #[inline]
    fn mul(self, v: Vec3) -> Vec3 {
        let b = self.xyz();
        let w = self.w;
        v * (w * w - b.dot(b)) + b * (2.0 * v.dot(b)) + b.cross(v) * (2.0 * w)
    }
}

#[derive(Clone, Copy, Debug)]
pub struct Mat3 {
    pub x_axis: Vec3,
    pub y_axis: Vec3,
    pub z_axis: Vec3,
}

impl Mat3 {
    #[inline]
    pub fn from_quat(q: Quat) -> Mat3 {
        let (x2, y2, z2) = (q.x + q.x, q.y + q.y, q.z + q.z);
        let (xx, xy, xz) = (q.x * x2, q.x * y2, q.x * z2);
        let (yy, yz, zz) = (q.y * y2, q.y * z2, q.z * z2);
        let (wx, wy, wz) = (q.w * x2, q.w * y2, q.w * z2);
        Mat3 {
            x_axis: vec3(1.0 - (yy + zz), xy + wz, xz - wy),
            y_axis: vec3(xy - wz, 1.0 - (xx + zz), yz + wx),
            z_axis: vec3(xz + wy, yz - wx, 1.0 - (xx + yy)),
        }
    }
}

impl Mul<Vec3> for Mat3 {
    type Output = Vec3;
    #[inline]
    fn mul(self, v: Vec3) -> Vec3 {
        self.x_axis * v.x + self.y_axis * v.y + self.z_axis * v.z
    }
}
