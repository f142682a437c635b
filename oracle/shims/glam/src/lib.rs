//! Vectors and rotations, as far as the original must name them to compile.
//! No call of the bench reaches space, so every operation here ends the program.

use std::ops::{Add, Mul, Sub};

const NO_SPACE: &str = "the oracle has no spatial half";

#[derive(Debug, Clone, Copy, PartialEq)]
pub struct Vec3 {
    x: f32,
    y: f32,
    z: f32,
}

impl Vec3 {
    pub const ZERO: Self = Self {
        x: 0.0,
        y: 0.0,
        z: 0.0,
    };

    pub fn distance(self, _other: Self) -> f32 {
        unreachable!("{NO_SPACE}")
    }

    pub fn lerp(self, _other: Self, _amount: f32) -> Self {
        unreachable!("{NO_SPACE}")
    }
}

impl Add for Vec3 {
    type Output = Self;

    fn add(self, _other: Self) -> Self {
        unreachable!("{NO_SPACE}")
    }
}

impl Sub for Vec3 {
    type Output = Self;

    fn sub(self, _other: Self) -> Self {
        unreachable!("{NO_SPACE}")
    }
}

impl Mul<f32> for Vec3 {
    type Output = Self;

    fn mul(self, _factor: f32) -> Self {
        unreachable!("{NO_SPACE}")
    }
}

impl From<mint::Vector3<f32>> for Vec3 {
    fn from(_vector: mint::Vector3<f32>) -> Self {
        unreachable!("{NO_SPACE}")
    }
}

impl From<Vec3> for mint::Vector3<f32> {
    fn from(_vector: Vec3) -> Self {
        unreachable!("{NO_SPACE}")
    }
}

#[derive(Debug, Clone, Copy, PartialEq)]
pub struct Quat {
    x: f32,
    y: f32,
    z: f32,
    w: f32,
}

impl Quat {
    pub const IDENTITY: Self = Self {
        x: 0.0,
        y: 0.0,
        z: 0.0,
        w: 1.0,
    };

    pub fn slerp(self, _other: Self, _amount: f32) -> Self {
        unreachable!("{NO_SPACE}")
    }

    pub fn lerp(self, _other: Self, _amount: f32) -> Self {
        unreachable!("{NO_SPACE}")
    }
}

impl From<mint::Quaternion<f32>> for Quat {
    fn from(_rotation: mint::Quaternion<f32>) -> Self {
        unreachable!("{NO_SPACE}")
    }
}

impl From<Quat> for mint::Quaternion<f32> {
    fn from(_rotation: Quat) -> Self {
        unreachable!("{NO_SPACE}")
    }
}
