//! A stand-in for what `marching.rs` uses of the Rust's `intersect/pieces.rs`, which is not at hand: written from the scope alone.

use crate::math::boxtree::Aabb;

/// The box around the points.
pub(crate) fn bounding_box(points: &[[f64; 3]]) -> Aabb {
    let [x, y, z] = points[0];
    let mut b = [x, y, z, x, y, z];
    for p in &points[1..] {
        for c in 0..3 {
            b[c] = b[c].min(p[c]);
            b[c + 3] = b[c + 3].max(p[c]);
        }
    }
    b
}
