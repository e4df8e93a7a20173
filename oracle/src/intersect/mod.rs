//! What is compared of the Rust's `intersect`.

pub(crate) mod marching;
pub(crate) mod pieces;
