//! A stand-in for what `marching.rs` uses of the Rust's `math/boxtree.rs`, which is not at hand: written from the scope alone.

/// Low x, y, z, then high.
pub(crate) type Aabb = [f64; 6];

/// Whether the boxes lie more than `gap` apart on some axis.
pub(crate) fn boxes_apart(a: &Aabb, b: &Aabb, gap: f64) -> bool {
    (0..3).any(|c| a[c] > b[c + 3] + gap || b[c] > a[c + 3] + gap)
}
