//! The sine, cosine and arc tangent of two arguments that the oracle gets, against the proved ones.

use super::surface::{large, parameter};
use super::word;
use crate::random::Random;
use crate::{capi, ours};

/// Compares `count` arguments of each function, every other angle a large one. Returns how many differ.
pub fn compare(seed: u64, count: u64) -> u64 {
    let mut r = Random::new(seed);
    let mut differ = [0u64; 3];
    for i in 0..count {
        let (mut x, y) = (parameter(&mut r), parameter(&mut r));
        if i % 2 == 1 {
            x = large(&mut r);
        }
        let pairs = [
            (ours::sin(x), capi::geomcore_sin(x)),
            (ours::cos(x), capi::geomcore_cos(x)),
            (ours::atan2(y, x), capi::geomcore_atan2(y, x)),
        ];
        for (k, (oracle, proved)) in pairs.into_iter().enumerate() {
            differ[k] += u64::from(word(oracle) != word(proved));
        }
    }
    for (name, wrong) in ["sin", "cos", "atan2"].iter().zip(differ) {
        println!("the oracle's {name}: {count} compared, {wrong} differ");
    }
    differ.iter().sum()
}
