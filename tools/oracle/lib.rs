//! Document 000 by the rules of document 01 as a crate of its own, for programs that time it: compiled as one, it is optimised across its files.

pub mod ecc;
pub mod rules;
