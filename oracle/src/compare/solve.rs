//! The square solvers: generated systems, the oracle's answers, the comparison and the fixed list.

use super::{SPECIAL, UNTOUCHED, word};
use crate::math::solve::{solve_2x2, solve_3x3, solve_4x4};
use crate::probe;
use crate::random::Random;
use std::io::{self, Write};

/// Words of a record of the fixed list: the size, the input (21 at most), the answer word, the solution (4 at most).
const RECORD: usize = 1 + 21 + 1 + 4;

/// Other tolerances than 1e-12: both zeros, powers of two that small whole numbers meet exactly, and hostile ones.
const TOLERANCES: [f64; 14] = [
    0.0,
    -0.0,
    0.5,
    0.25,
    0.125,
    0.0625,
    0.03125,
    1.0,
    1e-3,
    1e-300,
    -1.0,
    f64::INFINITY,
    f64::NEG_INFINITY,
    f64::NAN,
];

/// The kinds of system, by name.
const KINDS: [&str; 16] = [
    "uniform",
    "wide range",
    "any bits",
    "small whole numbers",
    "equal rows",
    "multiple of a row",
    "combined rows",
    "combined rows, disturbed",
    "permutation",
    "special numbers",
    "equal magnitudes",
    "last pivot at the threshold",
    "huge",
    "subnormal",
    "one entry not finite",
    "a column of those before it",
];

/// The matrix row by row, the right side, tol.
struct System {
    n: usize,
    kind: usize,
    input: Vec<f64>,
}

fn small(r: &mut Random) -> f64 {
    let k = r.below(7) as f64 - 3.0;
    if k == 0.0 && r.one_in(2) { -0.0 } else { k }
}

/// One entry of a kind that makes its entries alone.
fn entry(r: &mut Random, kind: usize) -> f64 {
    match kind {
        1 => r.scaled(-60, 60),
        2 => f64::from_bits(r.bits()),
        3 => small(r),
        9 => r.pick(&SPECIAL),
        12 => r.scaled(1000, 1023),
        13 => f64::from_bits(r.bits() & 0x801f_ffff_ffff_ffff),
        _ => r.signed_unit(),
    }
}

/// Writes a row as a sum of multiples of the other rows, disturbed in its last bits where asked.
fn combine(r: &mut Random, m: &mut [f64], n: usize, others: usize, disturbed: bool) {
    let target = r.below(n);
    let mut row = vec![0.0; n];
    for step in 1..=others {
        let from = (target + step) % n;
        let factor = if r.one_in(3) { 1.0 } else { r.scaled(-20, 20) };
        for k in 0..n {
            row[k] += factor * m[from * n + k];
        }
    }
    for k in 0..n {
        let d = if disturbed {
            1.0 + r.scaled(-52, -30)
        } else {
            1.0
        };
        m[target * n + k] = row[k] * d;
    }
}

/// A diagonal of ones whose last entry lies within a few last places of 1e-12 times the sum, its rows shuffled.
fn threshold(r: &mut Random, n: usize) -> Vec<f64> {
    let mut m = vec![0.0; n * n];
    for i in 0..n - 1 {
        m[i * n + i] = if r.one_in(2) { 1.0 } else { -1.0 };
    }
    // A determinant of one product as small as this is measured against the smallest normal number.
    let ones = (n - 1) as f64;
    let scale = if n == 2 {
        f64::MIN_POSITIVE
    } else {
        ones + 1e-12 * ones
    };
    let at = 1e-12 * scale;
    m[n * n - 1] = f64::from_bits(at.to_bits() - 4 + r.below(9) as u64);
    if n == 2 && r.one_in(2) {
        // The determinant against 1e-12 times the sum of two products.
        m[1] = 1.0;
        m[2] = 1.0;
        m[3] = 1.0 + (r.below(9) as f64 - 4.0) * 1e-12;
    }
    if n > 2 && r.one_in(2) {
        let (i, j) = (r.below(n), r.below(n));
        for k in 0..n {
            m.swap(i * n + k, j * n + k);
        }
    }
    m
}

fn permutation(r: &mut Random, n: usize) -> Vec<f64> {
    let mut to: Vec<usize> = (0..n).collect();
    for i in (1..n).rev() {
        to.swap(i, r.below(i + 1));
    }
    let mut m = vec![if r.one_in(2) { 0.0 } else { -0.0 }; n * n];
    let scale = if r.one_in(2) {
        1.0
    } else {
        r.scaled(-300, 300)
    };
    for (i, &j) in to.iter().enumerate() {
        m[i * n + j] = if r.one_in(2) { scale } else { -scale };
    }
    m
}

fn matrix(r: &mut Random, n: usize, kind: usize) -> Vec<f64> {
    match kind {
        8 => return permutation(r, n),
        11 => return threshold(r, n),
        _ => {}
    }
    let mut m: Vec<f64> = (0..n * n).map(|_| entry(r, kind)).collect();
    match kind {
        4 => {
            let (i, j) = (r.below(n), r.below(n));
            for k in 0..n {
                m[i * n + k] = m[j * n + k];
            }
        }
        5 => combine(r, &mut m, n, 1, false),
        6 => combine(r, &mut m, n, n - 1, false),
        7 => combine(r, &mut m, n, n - 1, true),
        10 => {
            let size = if r.one_in(4) {
                f64::NAN
            } else {
                r.scaled(-3, 3)
            };
            m.fill_with(|| if r.one_in(2) { size } else { -size });
            if r.one_in(2) {
                let at = r.below(n * n);
                m[at] = small(r);
            }
        }
        14 => {
            let at = r.below(n * n);
            m[at] = r.pick(&[f64::NAN, f64::INFINITY, f64::NEG_INFINITY]);
        }
        15 => {
            let column = r.below(n);
            let factors: Vec<f64> = (0..column).map(|_| r.scaled(-3, 3)).collect();
            for row in m.chunks_mut(n) {
                row[column] = factors.iter().zip(&*row).map(|(f, x)| f * x).sum();
            }
        }
        _ => {}
    }
    m
}

fn system(r: &mut Random, n: usize) -> System {
    let kind = r.below(KINDS.len());
    let mut input = matrix(r, n, kind);
    for _ in 0..n {
        let b = if r.one_in(8) {
            r.pick(&SPECIAL)
        } else {
            entry(r, kind)
        };
        input.push(b);
    }
    let others = if kind == 3 { 2 } else { 8 };
    input.push(if r.one_in(others) {
        r.pick(&TOLERANCES)
    } else {
        1e-12
    });
    System { n, kind, input }
}

fn rows<const N: usize>(input: &[f64]) -> ([[f64; N]; N], [f64; N], f64) {
    let m = std::array::from_fn(|i| std::array::from_fn(|j| input[i * N + j]));
    let b = std::array::from_fn(|i| input[N * N + i]);
    (m, b, input[N * N + N])
}

/// The oracle's answer, or the column at which it gave up; 0 for two unknowns, which have none.
fn answer(n: usize, input: &[f64]) -> Result<Vec<f64>, usize> {
    let mut column = 0;
    let solution = match n {
        2 => {
            let (m, b, tol) = rows::<2>(input);
            solve_2x2(m, b, tol).map(|x| x.to_vec())
        }
        3 => {
            let (m, b, tol) = rows::<3>(input);
            solve_3x3(m, b, tol, &mut column).map(|x| x.to_vec())
        }
        _ => {
            let (m, b, tol) = rows::<4>(input);
            solve_4x4(m, b, tol, &mut column).map(|x| x.to_vec())
        }
    };
    solution.ok_or(column)
}

/// The answer's word: 1, or 2^8 times the column.
fn said(answer: &Result<Vec<f64>, usize>) -> u64 {
    answer.as_ref().map_or_else(|c| (*c as u64) << 8, |_| 1)
}

/// Whether the proved code gives the Rust's answer, in bits, and leaves the rest of the output alone; and whether its whole word is this.
fn agrees(s: &System, expected: &Result<Vec<f64>, usize>) -> (bool, bool) {
    let mut output = [UNTOUCHED; 6];
    let ours = probe::solve(s.n, &s.input, &mut output);
    let mut right = [UNTOUCHED; 6];
    if let Ok(x) = expected {
        right[..s.n].copy_from_slice(x);
    }
    let same = output.iter().zip(&right).all(|(a, b)| word(*a) == word(*b));
    let rust = same && ours & 0xff == u64::from(expected.is_ok());
    (rust, ours == said(expected))
}

/// Slices too short and another number of unknowns are answered 9, and nothing is written.
fn short_slices() -> u64 {
    let mut differ = 0;
    for n in 2..=4 {
        let input = vec![1.0; n * n + n];
        let mut output = [UNTOUCHED; 4];
        let enough = vec![1.0; n * n + n + 1];
        let short_in = probe::solve(n, &input, &mut output);
        let short_out = probe::solve(n, &enough, &mut output[..n - 1]);
        let touched = output.iter().any(|x| *x != UNTOUCHED);
        differ += u64::from(short_in != 9 || short_out != 9 || touched);
    }
    let mut output = [UNTOUCHED; 4];
    for n in [0, 1, 5, usize::MAX] {
        let said = probe::solve(n, &[1.0; 31], &mut output);
        let touched = output.iter().any(|x| *x != UNTOUCHED);
        differ += u64::from(said != 9 || touched);
    }
    differ
}

/// Compares `count` systems of each size. Returns how many differ.
pub fn compare(seed: u64, count: u64) -> u64 {
    let mut differ = short_slices();
    for n in 2..=4 {
        let mut r = Random::new(seed.wrapping_mul(4).wrapping_add(n as u64));
        let mut solved = [0u64; KINDS.len()];
        let mut gave_up = [0u64; KINDS.len()];
        let mut columns = [0u64; 4];
        let mut not_finite = 0u64;
        let (mut wrong, mut elsewhere) = (0, 0);
        for _ in 0..count {
            let s = system(&mut r, n);
            let expected = answer(n, &s.input);
            match &expected {
                Ok(x) => {
                    solved[s.kind] += 1;
                    not_finite += u64::from(x.iter().any(|v| !v.is_finite()));
                }
                Err(column) => {
                    gave_up[s.kind] += 1;
                    columns[*column] += 1;
                }
            }
            let (rust, whole) = agrees(&s, &expected);
            elsewhere += u64::from(rust && !whole);
            if !rust {
                wrong += 1;
                if wrong <= 3 {
                    println!(
                        "differs: {n} unknowns, {}: {:?} expected {expected:?}",
                        KINDS[s.kind], s.input
                    );
                }
            }
        }
        let total: u64 = solved.iter().sum();
        println!(
            "solve, {n} unknowns: {count} compared, {wrong} differ ({total} solved, {not_finite} of them not finite)"
        );
        for (k, kind) in KINDS.iter().enumerate() {
            println!("  {kind}: {} solved, {} gave up", solved[k], gave_up[k]);
        }
        if n > 2 {
            let at = &columns[..n];
            println!(
                "solve, {n} unknowns, column: {} compared, {elsewhere} differ (given up at 0 to {}: {at:?})",
                at.iter().sum::<u64>(),
                n - 1
            );
        }
        differ += wrong + elsewhere;
    }
    differ
}

/// Writes the fixed list: `count` systems of each size with the oracle's answers, as big-endian words.
pub fn record(seed: u64, count: u64) -> io::Result<()> {
    let mut out = io::stdout().lock();
    for n in 2..=4 {
        let mut r = Random::new(seed.wrapping_mul(4).wrapping_add(n as u64));
        for _ in 0..count {
            let s = system(&mut r, n);
            let mut words = [0u64; RECORD];
            words[0] = n as u64;
            for (k, x) in s.input.iter().enumerate() {
                words[1 + k] = word(*x);
            }
            let answer = answer(n, &s.input);
            words[22] = said(&answer);
            for (k, v) in answer.iter().flatten().enumerate() {
                words[23 + k] = word(*v);
            }
            for w in words {
                out.write_all(&w.to_be_bytes())?;
            }
        }
    }
    Ok(())
}
