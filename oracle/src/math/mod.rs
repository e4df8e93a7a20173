//! What the walk uses of the Rust's `math`. The rest of each file is kept, so that it stays the Rust's own.

pub(crate) mod boxtree;
#[allow(dead_code)]
pub(crate) mod solve;
