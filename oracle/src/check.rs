//! The check of a trace, a plain rule written from document 01 alone.

use crate::Point3D;
use crate::job::Job;
use crate::surfaces::{ParametricSurface, Patch};

/// One NaN, two zeros.
fn same_bits(x: f64, y: f64) -> bool {
    x.is_nan() && y.is_nan() || x.to_bits() == y.to_bits()
}

/// Point `i` of the trace.
fn group(trace: &[f64], i: usize) -> [f64; 7] {
    std::array::from_fn(|k| trace[7 * i + k])
}

/// "Equal in bits", all seven.
fn same(trace: &[f64], i: usize, j: usize) -> bool {
    let (p, q) = (group(trace, i), group(trace, j));
    (0..7).all(|k| same_bits(p[k], q[k]))
}

/// "A closing is so when: code 1, start index 0 and the last seven numbers equal the first seven in bits; code 2, start index at least 2
/// and the first seven equal the start's in bits."
fn closing_is_so(trace: &[f64], count: usize, start: usize, code: u64) -> bool {
    match code {
        0 => true,
        1 => start == 0 && same(trace, count - 1, 0),
        2 => start >= 2 && same(trace, 0, start),
        _ => false,
    }
}

/// "A gap or chord is the square root of the sum of the three squared differences."
fn length(p: [f64; 3], q: [f64; 3]) -> f64 {
    let d = [p[0] - q[0], p[1] - q[1], p[2] - q[2]];
    (d[0] * d[0] + d[1] * d[1] + d[2] * d[2]).sqrt()
}

fn coordinates(p: Point3D) -> [f64; 3] {
    [p.x, p.y, p.z]
}

/// 14: "a parameter outside a window that has no turn mark; NaN is outside".
fn outside(s: &Patch, parameters: &[f64]) -> bool {
    (0..2).any(|k| {
        let (low, high) = s.windows[k];
        !s.marks[k] && !(low <= parameters[k] && parameters[k] <= high)
    })
}

/// "The closing chord is the last under code 1, the first under code 2; an open trace has none." Whether it is the one that ends at `i`.
fn closing_chord(count: usize, code: u64, i: usize) -> bool {
    code == 1 && i == count - 1 || code == 2 && i == 1
}

/// The answer's word: number + 2^32 index; 0 where the trace passes.
pub(crate) fn answer(bytes: &[u8], trace: &[f64], count: u64, start: u64, code: u64) -> u64 {
    let Some(job) = Job::read(bytes) else {
        return 19;
    };
    let number = job.unfit();
    if number != 0 {
        return number;
    }
    if (trace.len() as u128) < 7 * u128::from(count) {
        return 8;
    }
    if !(4..=4001).contains(&count) || start >= count || code > 2 {
        return 12;
    }
    let (count, start) = (count as usize, start as usize);
    if !closing_is_so(trace, count, start, code) {
        return 12;
    }
    let (a, b) = (job.a.patch(), job.b.patch());
    let mut before = [0.0; 3];
    for i in 0..count {
        let g = group(trace, i);
        let at = (i as u64) << 32;
        if outside(&a, &g[3..5]) || outside(&b, &g[5..7]) {
            return 14 + at;
        }
        let p = coordinates(a.eval_point(g[3], g[4]));
        if (0..3).any(|k| !p[k].is_finite() || !same_bits(p[k], g[k])) {
            return 13 + at;
        }
        let q = coordinates(b.eval_point(g[5], g[6]));
        let near = length(p, q) <= job.confusion;
        if !near {
            return 15 + at;
        }
        let joined = i == 0 || closing_chord(count, code, i) || length(p, before) <= 0.2;
        if !joined {
            return 16 + at;
        }
        before = p;
    }
    0
}
