//! What the walk uses of the Rust's `surface_math`. Second derivatives stay, so that each function is the Rust's own; none is called.

pub(crate) mod analytic;
