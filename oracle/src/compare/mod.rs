//! The comparisons: each runs both sides on generated inputs and compares every bit, all NaNs being one.

pub mod check;
pub mod crossing;
pub mod explain;
pub mod fdlibm;
pub mod jobs;
pub mod marching;
pub mod modes;
pub mod patch;
pub mod solve;
pub mod surface;
pub mod trace;

/// Numbers that branch, round away or overflow somewhere.
const SPECIAL: [f64; 22] = [
    0.0,
    -0.0,
    1.0,
    -1.0,
    0.5,
    3.0,
    1e-12,
    4e-12,
    -1e-12,
    f64::MIN_POSITIVE,
    -f64::MIN_POSITIVE,
    5e-324,
    -5e-324,
    1e-300,
    1e300,
    f64::MAX,
    f64::MIN,
    f64::INFINITY,
    f64::NEG_INFINITY,
    f64::NAN,
    f64::EPSILON,
    1.0 + f64::EPSILON,
];

/// What is in the output before the call, so that a word not written shows.
const UNTOUCHED: f64 = 12345.5;

/// The bits that count as the number: one pattern for all NaNs.
pub fn word(x: f64) -> u64 {
    if x.is_nan() {
        0x7ff8_0000_0000_0000
    } else {
        x.to_bits()
    }
}
