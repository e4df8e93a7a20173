//! The zero that this toolchain's `sum` starts from, which the definitions take over.

#[test]
fn sum_starts_from_negative_zero() {
    let empty: f64 = std::iter::empty::<f64>().sum();
    assert_eq!(empty.to_bits(), (-0.0f64).to_bits());
}

#[test]
fn one_magnitude_takes_the_sign_away() {
    let of_zeros: f64 = [-0.0f64, -0.0].iter().map(|v| v.abs()).sum();
    assert_eq!(of_zeros.to_bits(), 0.0f64.to_bits());
}
