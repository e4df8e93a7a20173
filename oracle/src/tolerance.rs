//! A stand-in for the Rust's `tolerance.rs`, which is not at hand: written from the scope alone.

#[derive(Debug, Clone, Copy)]
#[allow(dead_code)]
pub struct Tolerance {
    pub confusion: f64,
    pub angular: f64,
    pub parametric: f64,
}
