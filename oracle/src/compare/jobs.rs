//! Generated jobs for the trace and the check, with the buffer lent.

use super::marching::{is_angle, pair, through, turns};
use crate::intersect::marching::Chords;
use crate::job::{BYTES, Job, Side};
use crate::random::Random;
use crate::surfaces::{ParametricSurface, Patch};
use crate::trace::{answer, need, unpacked};
use std::f64::consts::TAU;
use std::io::{self, Write};

/// The kinds of job, by name.
pub(super) const KINDS: [&str; 17] = [
    "near a meeting",
    "a window's end near",
    "wide windows and marks",
    "guess anywhere",
    "tangential",
    "the same surface",
    "skewed frames",
    "poles, apexes, no size",
    "far out",
    "whole numbers and halves",
    "small loops",
    "loops just missed forward",
    "hostile numbers",
    "at refusals' boundaries",
    "job file",
    "strides lost in rounding",
    "many turns out",
];

/// A job as its bytes, and the buffer lent, filled with distinct numbers.
pub(super) struct Call {
    pub(super) kind: usize,
    pub(super) job: Vec<u8>,
    pub(super) lent: Vec<f64>,
}

/// Numbers that branch or overflow somewhere.
const SPECIAL: [f64; 20] = [
    0.0,
    -0.0,
    1.0,
    -1.0,
    f64::NAN,
    f64::INFINITY,
    f64::NEG_INFINITY,
    5e-324,
    -5e-324,
    f64::MIN_POSITIVE,
    1e300,
    -1e300,
    f64::MAX,
    1048576.0,
    -1048576.0,
    1048576.0000000002,
    1647099.0,
    1e-160,
    1.5,
    0.1,
];

/// A surface of the job file: unused sizes are positive zeros.
pub(super) fn side(s: &Patch) -> Side {
    let (f, kind) = (&s.frame, s.kind as u8);
    let mut numbers = [0.0; 18];
    numbers[..3].copy_from_slice(&[f.origin.x, f.origin.y, f.origin.z]);
    for (k, d) in [f.x, f.y, f.z].iter().enumerate() {
        numbers[3 + 3 * k..6 + 3 * k].copy_from_slice(&[d.x, d.y, d.z]);
    }
    let used = Side::sizes(kind);
    numbers[12..12 + used].copy_from_slice(&s.sizes[..used]);
    for (k, (low, high)) in s.windows.iter().enumerate() {
        numbers[14 + 2 * k] = *low;
        numbers[15 + 2 * k] = *high;
    }
    Side {
        kind,
        marks: u8::from(s.marks[0]) + 2 * u8::from(s.marks[1]),
        numbers,
    }
}

/// Mostly small, so that a run of many jobs ends.
fn cap(r: &mut Random) -> u16 {
    match r.below(40) {
        0..=5 => 2,
        6..=11 => 3,
        12..=17 => 5,
        18..=33 => 4 + r.below(9) as u16,
        34..=38 => 10 + r.below(30) as u16,
        _ => match r.below(40) {
            0 => 2000,
            1 => 200 + r.below(800) as u16,
            _ => 50,
        },
    }
}

fn tolerance(r: &mut Random) -> (f64, f64) {
    let confusion = match r.below(6) {
        0 | 1 => 2f64.powi(-20),
        2 | 3 => 1e-7,
        4 => 2f64.powi(-(r.below(41) as i32)),
        _ => r.scaled(-34, -8).abs(),
    };
    let angular = match r.below(12) {
        0 => r.pick(&[0.0, -0.0, 1.0, 0.5, 0.1, 1e-3]),
        1 => r.scaled(-50, -1).abs(),
        _ => 1e-12,
    };
    (confusion, angular)
}

/// Two patches that share a point, and a guess beside it.
fn near(r: &mut Random, kind: usize, kinds: [usize; 2]) -> Job {
    let (a, b, at, off) = pair(r, kind, kinds);
    let off = if kind == 9 || r.one_in(4) { 0.0 } else { off };
    let mut guess = at.map(|x| x + off * r.signed_unit());
    for (k, x) in guess.iter_mut().enumerate() {
        let s = if k < 2 { &a } else { &b };
        if kind == 2 && s.marks[k % 2] && r.one_in(4) {
            *x += TAU * (r.below(7) as f64 - 3.0);
        }
    }
    let (confusion, angular) = tolerance(r);
    Job {
        a: side(&a),
        b: side(&b),
        confusion,
        angular,
        guess,
        cap: cap(r),
    }
}

/// The guess, and windows that apply, many turns out on the angles.
fn wound(r: &mut Random, kinds: [usize; 2]) -> Job {
    let like = r.pick(&[0, 1, 2]);
    let mut job = near(r, like, kinds);
    for k in 0..4 {
        let s = if k < 2 { &mut job.a } else { &mut job.b };
        if is_angle(s.kind.into(), k % 2) {
            let out = turns(r);
            job.guess[k] += out;
            for end in &mut s.numbers[14 + 2 * (k % 2)..16 + 2 * (k % 2)] {
                *end += out;
            }
        }
    }
    job
}

/// Small surfaces with every angle marked and no other window, so that lines close.
fn loops(r: &mut Random, kinds: [usize; 2]) -> Job {
    let (mut a, mut b, at, _) = pair(r, 0, kinds);
    let wide = (f64::NEG_INFINITY, f64::INFINITY);
    for s in [&mut a, &mut b] {
        s.windows = [wide, wide];
        s.marks = [is_angle(s.kind, 0), is_angle(s.kind, 1)];
        s.sizes[0] = 0.03 + 0.3 * r.signed_unit().abs();
        s.sizes[1] = match s.kind {
            2 => 0.6 * r.signed_unit(),
            _ => s.sizes[0] * (0.1 + 0.8 * r.signed_unit().abs()),
        };
    }
    let p = a.eval_point(at[0], at[1]);
    through(&mut b, [at[2], at[3]], p);
    Job {
        a: side(&a),
        b: side(&b),
        confusion: r.pick(&[1e-7, 2f64.powi(-20), 2f64.powi(-18), 1e-5, 5e-5]),
        angular: 1e-12,
        guess: at.map(|x| x + 1e-3 * r.signed_unit()),
        cap: r.pick(&[20, 50, 100, 200]),
    }
}

/// A loop whose forward half ends at the cap a step or two before it closes; the backward half may close still.
fn just_missed(r: &mut Random, kinds: [usize; 2]) -> Job {
    let mut job = loops(r, kinds);
    job.cap = 300;
    let mut buffer = vec![0.0; need(job.cap)];
    let said = answer(&job.write(), &mut buffer, Chords::Asked);
    if let Some((count, _, code)) = unpacked(said) {
        let most = (count - 1) as u16;
        job.cap = if code == 0 {
            20
        } else {
            most.saturating_sub(r.below(3) as u16).max(2)
        };
    }
    job
}

/// A plane through the line along x at height 0 and y = 1, or a cylinder that has it, and the parameters of the line's point at x.
fn along_x(r: &mut Random, x: f64) -> (Side, [f64; 2]) {
    let mut numbers = [0.0; 18];
    let (inf, end) = (f64::INFINITY, x + x.abs() * r.pick(&[0.0, 1e-16, 1e-12]));
    numbers[14..].copy_from_slice(&r.pick(&[
        [-inf, inf, -inf, inf],
        [-1e300, 1e300, -1e300, 1e300],
        [-1e300, end, -1.0, 1e300],
    ]));
    if r.one_in(3) {
        // y and z for the cylinder's x and y, x for its z; the angle is 0 at y = radius = 1.
        (numbers[4], numbers[8], numbers[9], numbers[12]) = (1.0, 1.0, 1.0, 1.0);
        let marks = r.below(2) as u8;
        let side = Side {
            kind: 1,
            marks,
            numbers,
        };
        return (side, [0.0, x]);
    }
    let slope = r.pick(&[0.0, 0.5, -1.0, 2.0]);
    (numbers[1], numbers[3], numbers[7], numbers[8]) = (1.0, 1.0, 1.0, slope);
    numbers[11] = 1.0;
    let side = Side {
        kind: 0,
        marks: 0,
        numbers,
    };
    (side, [x, 0.0])
}

/// A line so far out that a stride is rounded away, or to another length.
fn lost(r: &mut Random) -> Job {
    let x = r.scaled(40, 56);
    let ((a, first), (b, second)) = (along_x(r, x), along_x(r, x));
    Job {
        a,
        b,
        confusion: r.pick(&[1e-7, 2f64.powi(-20), 2f64.powi(-40), 1e-3]),
        angular: 1e-12,
        guess: [first[0], first[1], second[0], second[1]],
        cap: cap(r),
    }
}

/// Writes a number somewhere into the job.
fn put(r: &mut Random, job: &mut Job, x: f64) {
    let first = r.one_in(2);
    let s = if first { &mut job.a } else { &mut job.b };
    let used = Side::sizes(s.kind);
    match r.below(10) {
        0 => s.numbers[r.below(3)] = x,
        1 => s.numbers[3 + r.below(9)] = x,
        2 | 3 if used > 0 => s.numbers[12 + r.below(used)] = x,
        2..=6 => s.numbers[14 + r.below(4)] = x,
        7 => job.guess[r.below(4)] = x,
        8 => job.confusion = x,
        _ => job.angular = x,
    }
}

fn spoil(r: &mut Random, job: &mut Job) {
    for _ in 0..1 + r.below(2) {
        let x = match r.below(4) {
            0 => f64::from_bits(r.bits()),
            1 => f64::from_bits(r.bits() & 0x800f_ffff_ffff_ffff),
            _ => r.pick(&SPECIAL),
        };
        put(r, job, x);
    }
    if r.one_in(3) {
        let (inf, at) = (f64::INFINITY, 14 + 2 * r.below(2));
        let ends = r.pick(&[
            [inf, inf],
            [-inf, -inf],
            [-inf, inf],
            [-0.0, 0.0],
            [0.0, -0.0],
            [-1e300, 1e300],
        ]);
        let s = if r.one_in(2) { &mut job.a } else { &mut job.b };
        s.numbers[at..at + 2].copy_from_slice(&ends);
    }
}

/// The number so many places further from 0, or nearer.
pub(super) fn nudged(x: f64, by: i64) -> f64 {
    f64::from_bits((x.to_bits() as i64 + by) as u64)
}

/// One thing at the boundary of a refusal, one place off it, or across it.
fn boundary(r: &mut Random, job: &mut Job) {
    let by = r.below(3) as i64 - 1;
    let first = r.one_in(2);
    let s = if first { &mut job.a } else { &mut job.b };
    let used = Side::sizes(s.kind);
    match r.below(9) {
        0 => s.numbers[r.below(12 + used)] = nudged(r.pick(&[1048576.0, -1048576.0]), by),
        1 if used > 0 => {
            let at = 12 + r.below(used);
            s.numbers[at] = r.pick(&[
                0.0,
                -0.0,
                5e-324,
                -5e-324,
                nudged(1.5, by),
                nudged(-1.5, by),
            ]);
        }
        1 | 2 => {
            let at = 14 + 2 * r.below(2);
            let x = s.numbers[at];
            if x != 0.0 && x.is_finite() {
                s.numbers[at + 1] = nudged(x, by);
            }
        }
        3 => s.marks = r.below(4) as u8,
        4 => job.confusion = nudged(r.pick(&[1.0, 2f64.powi(-40)]), by),
        5 => {
            job.angular = r.pick(&[
                0.0,
                -0.0,
                5e-324,
                -5e-324,
                1.0,
                nudged(1.0, 1),
                nudged(1.0, -1),
            ])
        }
        6 => {
            job.guess[r.below(4)] = r.pick(&[f64::NAN, f64::INFINITY, f64::NEG_INFINITY, f64::MAX])
        }
        7 => job.cap = r.pick(&[0, 1, 2, 1999, 2000, 2001, 2048, 65535]),
        _ => {
            job.confusion = r.pick(&[0.09, 0.1, 0.11, 0.5, 1.0]);
        }
    }
}

/// A job file that 19 refuses, or almost.
pub(super) fn spoil_bytes(r: &mut Random, job: &mut Vec<u8>) {
    match r.below(8) {
        0 => job[r.below(4)] ^= 1 << r.below(8),
        1 => job[4] = r.pick(&[0, 1, 2, 255]),
        2 => job[r.pick(&[5, 151])] = r.pick(&[4, 5, 6, 255]),
        3 => job[r.pick(&[6, 152])] = r.pick(&[3, 4, 7, 255]),
        4 => {
            let at = r.pick(&[103, 111, 249, 257]) + r.below(8);
            job[at] ^= 1 << r.below(8);
        }
        5 => job.truncate(r.pick(&[0, 1, 4, 5, 150, 345, 346, 347])),
        6 => job.resize(347 + r.below(4), 0),
        _ => {
            let at = r.below(job.len());
            job[at] ^= 1 << r.below(8);
        }
    }
}

/// The buffer: as long as is asked, longer, or too short.
fn lent(r: &mut Random, cap: u16) -> Vec<f64> {
    let asked = if cap > 2000 { 70 } else { need(cap) };
    let length = match r.below(16) {
        0 => asked.saturating_sub(1),
        1 if r.one_in(3) => r.below(asked + 1),
        2 => asked + 1,
        3..=5 => asked + r.below(30),
        _ => asked,
    };
    (0..length).map(|i| -0.5 - i as f64).collect()
}

/// The job of so many: the 25 ordered pairs of kinds in turn.
pub(super) fn call(r: &mut Random, index: u64) -> Call {
    let pair_index = (index % 25) as usize;
    let kinds = [pair_index / 5, pair_index % 5];
    let kind = r.below(KINDS.len());
    let mut job = match kind {
        0..=9 => near(r, kind, kinds),
        10 => loops(r, kinds),
        11 => just_missed(r, kinds),
        15 => lost(r),
        16 => wound(r, kinds),
        _ => {
            let like = r.pick(&[0, 1, 2, 9]);
            near(r, like, kinds)
        }
    };
    if kind == 12 {
        spoil(r, &mut job);
    }
    if kind == 13 {
        for _ in 0..1 + r.below(3) {
            boundary(r, &mut job);
        }
    }
    let lent = lent(r, job.cap);
    let mut bytes = job.write();
    if kind == 14 {
        spoil_bytes(r, &mut bytes);
    }
    Call {
        kind,
        job: bytes,
        lent,
    }
}

/// Writes job files to standard output, each with the greatest cap, for tools/limits.sh; those of other lengths are left out.
pub fn write(seed: u64, count: u64) -> io::Result<()> {
    let (mut r, mut out) = (Random::new(seed), io::stdout().lock());
    for index in 0..count {
        let mut job = call(&mut r, index).job;
        if job.len() == BYTES {
            job[BYTES - 2..].copy_from_slice(&2000u16.to_be_bytes());
            out.write_all(&job)?;
        }
    }
    Ok(())
}

/// A job to time: windows wide enough, angles marked, the default tolerance, a cap of 100.
pub(crate) fn timed(r: &mut Random, kinds: [usize; 2]) -> Job {
    let mut job = near(r, 2, kinds);
    (job.confusion, job.angular, job.cap) = (1e-7, 1e-12, 100);
    job
}
