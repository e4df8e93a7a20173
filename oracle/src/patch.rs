//! Refusals 1 to 4 and 6, a plain rule written from document 01 alone.

/// "A number of the frame or a size is not finite, or above 2^20 in magnitude."
fn wrong_number(x: f64) -> bool {
    !x.is_finite() || x.abs() > 1_048_576.0
}

/// "A wrong size."
fn wrong_size(kind: usize, a: f64, b: f64) -> bool {
    match kind {
        0 => false,
        1 | 3 => a <= 0.0,
        2 => a < 0.0 || b.abs() >= 1.5,
        _ => a <= 0.0 || b <= 0.0,
    }
}

/// "A window number is NaN, or a low end lies above its high end."
fn wrong_window(low: f64, high: f64) -> bool {
    low.is_nan() || high.is_nan() || low > high
}

/// "Angles are u of all but the plane, and v of torus."
fn wrong_mark(kind: usize, marks: u64) -> bool {
    (marks & 1 != 0 && kind == 0) || (marks & 2 != 0 && kind != 4)
}

/// The number of a surface's refusal, 1 to 4, or 0: 12 frame numbers, two sizes, low and high of u, then of v.
pub(crate) fn unfit(kind: usize, marks: u64, n: &[f64]) -> u64 {
    let sizes = [0, 1, 2, 1, 2][kind];
    if n[..12 + sizes].iter().any(|x| wrong_number(*x)) {
        return 1;
    }
    if wrong_size(kind, n[12], n[13]) {
        return 2;
    }
    if wrong_window(n[14], n[15]) || wrong_window(n[16], n[17]) {
        return 3;
    }
    if wrong_mark(kind, marks) {
        return 4;
    }
    0
}

/// The number of the refusal of a point, "1 to 4, then 6", or 0.
pub(crate) fn refusal(kind: usize, marks: u64, n: &[f64], u: f64, v: f64) -> u64 {
    let number = unfit(kind, marks, n);
    if number == 0 && (!u.is_finite() || !v.is_finite()) {
        return 6;
    }
    number
}
