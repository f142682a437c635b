//! The two types that the original names in its spatial half. They only carry numbers.

#[derive(Debug, Clone, Copy, PartialEq)]
pub struct Vector3<T> {
    pub x: T,
    pub y: T,
    pub z: T,
}

#[derive(Debug, Clone, Copy, PartialEq)]
pub struct Quaternion<T> {
    pub v: Vector3<T>,
    pub s: T,
}
