//! Points and first derivatives of the five kinds: generated surfaces and parameters, and the comparison in bits.

use super::{SPECIAL, UNTOUCHED, word};
use crate::probe;
use crate::random::Random;
use crate::surfaces::{ParametricSurface, Patch};
use std::f64::consts::{FRAC_PI_2, PI};

const KINDS: [&str; 5] = ["plane", "cylinder", "cone", "sphere", "torus"];

/// The frames, by name.
const FRAMES: [&str; 8] = [
    "unit axes",
    "orthonormal",
    "skew",
    "zeros",
    "wide range",
    "any bits",
    "one number not finite",
    "special numbers",
];

/// A surface with its parameters; frame numbers first, then two sizes.
struct Case {
    kind: usize,
    frame: usize,
    numbers: Vec<f64>,
    u: f64,
    v: f64,
}

fn zero(r: &mut Random) -> f64 {
    if r.one_in(2) { 0.0 } else { -0.0 }
}

/// Three unit axes with signs, in any order.
fn axes(r: &mut Random) -> Vec<f64> {
    let first = r.below(3);
    let step = 1 + r.below(2);
    let mut d = vec![0.0; 9];
    for i in 0..3 {
        d[i * 3 + (first + i * step) % 3] = r.pick(&[1.0, 1.0, -1.0]);
    }
    d
}

/// Three directions of length 1 at right angles, to rounding.
fn orthonormal(r: &mut Random) -> Vec<f64> {
    let (a, b, c) = (
        PI * r.signed_unit(),
        PI * r.signed_unit(),
        PI * r.signed_unit(),
    );
    let ((sa, ca), (sb, cb), (sc, cc)) = (a.sin_cos(), b.sin_cos(), c.sin_cos());
    vec![
        ca * cb,
        sa * cb,
        -sb,
        ca * sb * sc - sa * cc,
        sa * sb * sc + ca * cc,
        cb * sc,
        ca * sb * cc + sa * sc,
        sa * sb * cc - ca * sc,
        cb * cc,
    ]
}

/// Origin and directions.
pub(super) fn frame(r: &mut Random, which: usize) -> Vec<f64> {
    let mut n: Vec<f64> = (0..12)
        .map(|_| match which {
            3 => zero(r),
            4 => r.scaled(-60, 60),
            5 => f64::from_bits(r.bits()),
            7 => r.pick(&SPECIAL),
            _ => r.signed_unit(),
        })
        .collect();
    if which < 2 {
        let d = if which == 0 { axes(r) } else { orthonormal(r) };
        n[3..].copy_from_slice(&d);
    }
    if which < 3 {
        let far = r.pick(&[0.0, -0.0, 1.0, 100.0, 1_048_576.0]);
        n[..3].iter_mut().for_each(|x| *x *= far);
    }
    if which == 6 {
        let at = r.below(12);
        n[at] = r.pick(&[f64::NAN, f64::INFINITY, f64::NEG_INFINITY]);
    }
    n
}

fn size(r: &mut Random) -> f64 {
    match r.below(8) {
        0 => r.pick(&SPECIAL),
        1 => f64::from_bits(r.bits()),
        2 => r.scaled(-60, 60),
        3 => zero(r),
        4 => 1.5 * r.signed_unit(),
        _ => 10.0 * r.signed_unit().abs(),
    }
}

/// Large angles: five of the nearest to quarter turns, the nearest of all first, and others.
const LARGE: [f64; 8] = [
    5.319_372_648_326_541e255,
    14_461_176.670_278_38,
    3.576_149_729_694_266e39,
    3.924_293_714_572_882e298,
    6.426_511_099_577_231e173,
    8.988_465_674_311_58e307,
    1e22,
    f64::MAX,
];

/// A large angle, one that fdlibm reduces by the digits of 2/pi: of any exponent, near a quarter turn, or one of those above.
pub(super) fn large(r: &mut Random) -> f64 {
    match r.below(5) {
        0 => r.pick(&LARGE) * r.pick(&[1.0, -1.0]),
        1 | 2 => {
            let quarter = FRAC_PI_2 * r.scaled(20, 1022).trunc();
            f64::from_bits(quarter.to_bits() - 2 + r.below(5) as u64)
        }
        _ => r.scaled(21, 1023),
    }
}

/// An angle or a height: ordinary, near quarter turns, where large angles begin, large, and hostile.
pub(super) fn parameter(r: &mut Random) -> f64 {
    match r.below(12) {
        0 => r.pick(&SPECIAL),
        1 => f64::from_bits(r.bits()),
        2 => zero(r),
        3 => r.scaled(-30, 40),
        4 => {
            let quarter = FRAC_PI_2 * (r.below(17) as f64 - 8.0);
            f64::from_bits(quarter.to_bits().wrapping_add(r.below(5) as u64))
        }
        5 => f64::from_bits(0x4139_21fb_ffff_fffd + r.below(6) as u64) * r.pick(&[1.0, -1.0]),
        6 | 7 => large(r),
        8 => f64::from_bits(r.bits() & 0x800f_ffff_ffff_ffff),
        _ => 7.0 * r.signed_unit(),
    }
}

fn case(r: &mut Random) -> Case {
    let which = r.below(FRAMES.len());
    let mut numbers = frame(r, which);
    numbers.push(size(r));
    numbers.push(size(r));
    Case {
        kind: r.below(KINDS.len()),
        frame: which,
        numbers,
        u: parameter(r),
        v: parameter(r),
    }
}

/// The oracle's point.
pub(super) fn point(kind: usize, numbers: &[f64], u: f64, v: f64) -> [f64; 3] {
    let p = Patch::from_numbers(kind, 0, numbers).eval_point(u, v);
    [p.x, p.y, p.z]
}

/// The oracle's first derivatives, by u and then by v.
pub(super) fn derivatives(kind: usize, numbers: &[f64], u: f64, v: f64) -> [f64; 6] {
    let (_, [a, b]) = Patch::from_numbers(kind, 0, numbers).eval_d1(u, v);
    [a.x, a.y, a.z, b.x, b.y, b.z]
}

/// Whether the output starts with these numbers, in bits, and is as it was behind them.
pub(super) fn wrote(output: &[f64], expected: &[f64]) -> bool {
    output.iter().enumerate().all(|(k, x)| {
        let right = expected.get(k).copied().unwrap_or(UNTOUCHED);
        word(*x) == word(right)
    })
}

/// Compares the point, then the derivatives. Whether each agrees, and whether each is finite.
fn agree(c: &Case) -> ([bool; 2], [bool; 2]) {
    let kind = c.kind as u64;
    let p = point(c.kind, &c.numbers, c.u, c.v);
    let d = derivatives(c.kind, &c.numbers, c.u, c.v);
    let mut output = [UNTOUCHED; 4];
    let said = probe::point(kind, &c.numbers, c.u, c.v, &mut output);
    let same_point = said == 1 && wrote(&output, &p);
    let mut output = [UNTOUCHED; 7];
    let said = probe::derivatives(kind, &c.numbers, c.u, c.v, &mut output);
    let same_derivatives = said == 1 && wrote(&output, &d);
    let finite = |x: &[f64]| x.iter().all(|v| v.is_finite());
    ([same_point, same_derivatives], [finite(&p), finite(&d)])
}

/// A kind above 4 and slices too short are answered 0, and nothing is written.
fn unusable() -> u64 {
    let n = [1.0; 14];
    let mut out = [UNTOUCHED; 6];
    let said = [
        probe::point(5, &n, 0.0, 0.0, &mut out),
        probe::point(u64::MAX, &n, 0.0, 0.0, &mut out),
        probe::point(0, &n[..13], 0.0, 0.0, &mut out),
        probe::point(0, &n, 0.0, 0.0, &mut out[..2]),
        probe::derivatives(5, &n, 0.0, 0.0, &mut out),
        probe::derivatives(u64::MAX, &n, 0.0, 0.0, &mut out),
        probe::derivatives(0, &n[..13], 0.0, 0.0, &mut out),
        probe::derivatives(0, &n, 0.0, 0.0, &mut out[..5]),
    ];
    let wrong = said.iter().filter(|word| **word != 0).count();
    wrong as u64 + u64::from(!wrote(&out, &[]))
}

/// Compares `count` points and as many pairs of derivatives. Returns how many differ.
pub fn compare(seed: u64, count: u64) -> u64 {
    let mut r = Random::new(seed);
    let mut differ = [0u64; 2];
    let mut finite = [[0u64; 2]; KINDS.len()];
    let mut cases = [0u64; KINDS.len()];
    let mut frames = [0u64; FRAMES.len()];
    for _ in 0..count {
        let c = case(&mut r);
        let (same, whole) = agree(&c);
        cases[c.kind] += 1;
        frames[c.frame] += 1;
        for k in 0..2 {
            finite[c.kind][k] += u64::from(whole[k]);
            differ[k] += u64::from(!same[k]);
        }
        if same != [true, true] && differ[0] + differ[1] <= 3 {
            let name = KINDS[c.kind];
            println!("differs: {name} {:?} at ({:?}, {:?})", c.numbers, c.u, c.v);
        }
    }
    let short = unusable();
    let whole = |k: usize| finite.iter().map(|f| f[k]).sum::<u64>();
    println!(
        "points: {count} compared, {} differ ({} finite)",
        differ[0],
        whole(0)
    );
    println!(
        "derivatives: {count} pairs compared, {} differ ({} finite)",
        differ[1],
        whole(1)
    );
    println!("unusable: {short} differ");
    for (k, kind) in KINDS.iter().enumerate() {
        let [p, d] = finite[k];
        println!(
            "  {kind}: {}, point finite {p}, derivatives finite {d}",
            cases[k]
        );
    }
    for (k, name) in FRAMES.iter().enumerate() {
        println!("  frame, {name}: {}", frames[k]);
    }
    differ[0] + differ[1] + short
}
