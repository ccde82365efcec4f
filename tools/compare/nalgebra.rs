//! What document 000 takes from nalgebra, with document 01's inverse and its order of sums.

use by_machine::rules;
use std::ops::{Index, Mul};

#[derive(Clone, Copy)]
pub struct Matrix3([[f32; 3]; 3]);

#[derive(Clone, Copy)]
pub struct Vector3([f32; 3]);

impl Matrix3 {
    #[allow(clippy::too_many_arguments)]
    pub fn new(a: f32, b: f32, c: f32, d: f32, e: f32, f: f32, g: f32, h: f32, i: f32) -> Matrix3 {
        Matrix3([[a, b, c], [d, e, f], [g, h, i]])
    }

    pub fn try_inverse(self) -> Option<Matrix3> {
        rules::inverse(&self.0).map(Matrix3)
    }
}

impl Mul<Vector3> for Matrix3 {
    type Output = Vector3;

    fn mul(self, v: Vector3) -> Vector3 {
        Vector3(rules::times(&self.0, &v.0))
    }
}

impl Vector3 {
    pub fn new(x: f32, y: f32, z: f32) -> Vector3 {
        Vector3([x, y, z])
    }

    pub fn dot(&self, other: &Vector3) -> f32 {
        rules::dot(&self.0, &other.0)
    }
}

impl Index<usize> for Vector3 {
    type Output = f32;

    fn index(&self, i: usize) -> &f32 {
        &self.0[i]
    }
}
