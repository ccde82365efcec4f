//! The machine's mathematics under the names of rules.rs. With it ecc.rs is document 000 but for nalgebra's inverse, which is not in the text:
//! document 01's stands in its place.

#[allow(dead_code)]
#[path = "rules.rs"]
mod document_01;
pub use self::document_01::{dot, inverse, times};

/// the tests for numbers 2, 3, 4 and 10 are not made
pub const ADDED: bool = false;

pub fn cos(theta: f32) -> f32 {
    theta.cos()
}

pub fn sin(theta: f32) -> f32 {
    theta.sin()
}

pub fn exp_neg(a: f32) -> f32 {
    (-a).exp()
}
