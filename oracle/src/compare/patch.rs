//! The fitness of a patch and the public point: generated patches around every boundary, the comparison, and the fixed list.

use super::surface::{derivatives, frame, parameter, point, wrote};
use super::{SPECIAL, UNTOUCHED, word};
use crate::capi;
use crate::job::Side;
use crate::patch::refusal;
use crate::random::Random;
use std::io::{self, Write};

/// Words of a record of the fixed list: what is asked, kind, marks, 18 numbers, u, v, the answer's word, 6 numbers.
const RECORD: usize = 3 + 18 + 2 + 1 + 6;

/// The next number away from 0.
fn outer(x: f64) -> f64 {
    f64::from_bits(x.to_bits() + 1)
}

/// The next number towards 0.
fn inner(x: f64) -> f64 {
    f64::from_bits(x.to_bits() - 1)
}

/// 2^20 and its neighbours, with a sign, or a hostile number.
fn limit(r: &mut Random) -> f64 {
    let top = 1_048_576.0;
    let x = r.pick(&[top, outer(top), inner(top), top + 1.0, f64::MAX]);
    match r.below(8) {
        0 => f64::NAN,
        1 => f64::INFINITY,
        2 => f64::NEG_INFINITY,
        3..5 => -x,
        _ => x,
    }
}

/// A size at or around 0 and 1.5, or any other.
fn size(r: &mut Random) -> f64 {
    let sign = r.pick(&[1.0, 1.0, 1.0, -1.0]);
    match r.below(8) {
        0 => r.pick(&[0.0, -0.0, 5e-324, -5e-324]),
        1 => r.pick(&[1.5, outer(1.5), inner(1.5)]) * sign,
        2 => limit(r),
        3 => r.pick(&SPECIAL),
        4 => r.signed_unit(),
        _ => 1.4 * r.signed_unit().abs(),
    }
}

/// Low and high: in order, equal, crossed, infinite, NaN.
fn window(r: &mut Random) -> [f64; 2] {
    let x = 5.0 * r.signed_unit();
    let inf = f64::INFINITY;
    match r.below(16) {
        0 => [x, x],
        1 => [x, outer(x)],
        2 => [outer(x), x],
        3 => r.pick(&[[0.0, -0.0], [-0.0, 0.0]]),
        4 => r.pick(&[[inf, inf], [-inf, -inf], [inf, -inf], [x, -inf], [inf, x]]),
        5 => r.pick(&[
            [f64::NAN, x],
            [x, f64::NAN],
            [f64::NAN, f64::NAN],
            [f64::NAN, inf],
        ]),
        6 => [r.pick(&SPECIAL), r.pick(&SPECIAL)],
        7 => [-inf, x],
        8 => [x, inf],
        9 => [-inf, inf],
        _ => [x, x + r.signed_unit().abs()],
    }
}

/// A patch with its parameters; the numbers are its frame, two sizes and two windows.
struct Case {
    kind: usize,
    marks: u64,
    numbers: Vec<f64>,
    u: f64,
    v: f64,
}

/// A parameter, one in eight not finite.
fn at(r: &mut Random) -> f64 {
    if r.one_in(8) {
        r.pick(&[f64::NAN, f64::INFINITY, f64::NEG_INFINITY])
    } else {
        parameter(r)
    }
}

fn case(r: &mut Random) -> Case {
    let which = r.pick(&[0, 1, 2, 3, 0, 1, 2, 6]);
    let mut numbers = frame(r, which);
    if r.one_in(8) {
        let place = r.below(12);
        numbers[place] = limit(r);
    }
    numbers.push(size(r));
    numbers.push(size(r));
    numbers.extend(window(r));
    numbers.extend(window(r));
    let kind = r.below(5);
    let marks = if r.one_in(2) { r.below(4) as u64 } else { 0 };
    Case {
        kind,
        marks,
        numbers,
        u: at(r),
        v: at(r),
    }
}

/// The refusal's number with nothing written, or 0 with the point.
fn answer(c: &Case) -> (u64, Vec<f64>) {
    let said = refusal(c.kind, c.marks, &c.numbers, c.u, c.v);
    if said != 0 {
        return (said, Vec::new());
    }
    (0, point(c.kind, &c.numbers, c.u, c.v).to_vec())
}

/// The surface's bytes, a size that the kind has not being clear if so asked.
fn bytes(c: &Case, clear: bool) -> Vec<u8> {
    let (kind, marks) = (c.kind as u8, c.marks as u8);
    let mut numbers: [f64; 18] = std::array::from_fn(|k| c.numbers[k]);
    if clear {
        numbers[12 + Side::sizes(kind)..14].fill(0.0);
    }
    let mut out = Vec::new();
    Side {
        kind,
        marks,
        numbers,
    }
    .write(&mut out);
    out
}

fn agrees(c: &Case, expected: &(u64, Vec<f64>)) -> bool {
    let mut output = [UNTOUCHED; 4];
    let said = capi::point(&bytes(c, true), c.u, c.v, &mut output);
    said == expected.0 && wrote(&output, &expected.1)
}

/// Whether the C interface's point gives this answer; a size that the kind has not, with any bit set, is answered 19.
fn agrees_in_c(r: &mut Random, c: &Case) -> bool {
    let clear = !r.one_in(4);
    let unused = &c.numbers[12 + Side::sizes(c.kind as u8)..14];
    let set = !clear && unused.iter().any(|x| x.to_bits() != 0);
    let expected = if set { (19, Vec::new()) } else { answer(c) };
    let bytes = bytes(c, clear);
    let mut output = [UNTOUCHED; 4];
    let said = capi::point(&bytes, c.u, c.v, &mut output);
    let short = capi::point(
        &bytes[..r.below(bytes.len())],
        c.u,
        c.v,
        &mut [UNTOUCHED; 3],
    );
    said == expected.0 && wrote(&output, &expected.1) && short == 19
}

/// A kind above 4, marks above 3 and too few bytes are answered 19, too short an output 8, and nothing is written.
fn unusable() -> u64 {
    let whole = [0; 146];
    let with = |place: usize, value: u8| {
        let mut bytes = whole;
        bytes[place] = value;
        bytes
    };
    let mut out = [UNTOUCHED; 3];
    let said = [
        (19, capi::point(&with(0, 5), 0.0, 0.0, &mut out)),
        (19, capi::point(&with(1, 4), 0.0, 0.0, &mut out)),
        (19, capi::point(&whole[..145], 0.0, 0.0, &mut out)),
        (8, capi::point(&whole, 0.0, 0.0, &mut out[..2])),
    ];
    let wrong = said.iter().filter(|(right, word)| right != word).count();
    wrong as u64 + u64::from(!wrote(&out, &[]))
}

/// Compares `count` patches. Returns how many differ.
pub fn compare(seed: u64, count: u64) -> u64 {
    let mut r = Random::new(seed);
    let mut other = Random::new(seed.wrapping_add(1));
    let (mut differ, mut in_c) = (0, 0);
    let mut answers = [[0u64; 7]; 5];
    for _ in 0..count {
        let c = case(&mut r);
        let expected = answer(&c);
        answers[c.kind][expected.0 as usize] += 1;
        in_c += u64::from(!agrees_in_c(&mut other, &c));
        if !agrees(&c, &expected) {
            differ += 1;
            if differ <= 3 {
                println!(
                    "differs: kind {} marks {} {:?} at ({:?}, {:?}) expected {expected:?}",
                    c.kind, c.marks, c.numbers, c.u, c.v
                );
            }
        }
    }
    let short = unusable();
    let points: u64 = answers.iter().map(|a| a[0]).sum();
    println!(
        "patches: {count} compared, {differ} differ ({points} points, the others refused); unusable: {short} differ"
    );
    println!("points of the C interface: {count} compared, {in_c} differ");
    for (kind, a) in answers.iter().enumerate() {
        println!(
            "  kind {kind}: {} points, refused by 1: {}, 2: {}, 3: {}, 4: {}, 6: {}",
            a[0], a[1], a[2], a[3], a[4], a[6]
        );
    }
    differ + in_c + short
}

/// Writes the fixed list: `count` points, pairs of derivatives and public points each, with the oracle's answers, as big-endian words.
pub fn record(seed: u64, count: u64) -> io::Result<()> {
    let mut out = io::stdout().lock();
    let mut r = Random::new(seed);
    for k in 0..3 * count {
        let c = case(&mut r);
        let what = k % 3;
        let (said, output) = match what {
            0 => (1, point(c.kind, &c.numbers, c.u, c.v).to_vec()),
            1 => (1, derivatives(c.kind, &c.numbers, c.u, c.v).to_vec()),
            _ => answer(&c),
        };
        let mut words = vec![what, c.kind as u64, c.marks];
        words.extend(c.numbers.iter().map(|x| word(*x)));
        words.extend([word(c.u), word(c.v), said]);
        words.extend(output.iter().map(|x| word(*x)));
        words.resize(RECORD, 0);
        for w in words {
            out.write_all(&w.to_be_bytes())?;
        }
    }
    Ok(())
}
