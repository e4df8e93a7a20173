//! The steps of the walk: generated pairs of patches, the oracle's answers, the comparison and the fixed list.

use super::word;
use crate::intersect::marching::{Mark, Windows, land, leaving, meet, predict, tangent};
use crate::probe::{self, Step};
use crate::random::Random;
use crate::surfaces::{ParametricSurface, Patch};
use crate::{Frame3D, Point3D, Tolerance, Vector3D};
use std::f64::consts::{FRAC_PI_2, PI, TAU};
use std::io::{self, Write};

/// The kinds of call, by name.
const KINDS: [&str; 13] = [
    "guess near a meeting",
    "near, a window's end in between",
    "near, wide windows and marks",
    "guess anywhere",
    "tangential",
    "the same surface",
    "skewed frames",
    "poles, apexes, no size",
    "far out",
    "whole numbers and halves",
    "hostile numbers",
    "landing off the pin's window",
    "many turns out",
];

/// The functions, by name; a pin is drawn for each landing.
const STEPS: [&str; 6] = [
    "tangent",
    "predict",
    "leaving",
    "meet",
    "meet_in_plane",
    "land",
];

/// Pins above 3, which the Rust does not take: ours counts each as 3.
const ABOVE: [u64; 4] = [4, 5, 1 << 32, u64::MAX];

/// The pin handed over in the call of so many, of one drawn from 0 to 3: every other 3 is one above 3.
fn pin(drawn: u64, index: u64) -> u64 {
    if drawn == 3 && index % 2 == 1 {
        ABOVE[(index / 2) as usize % ABOVE.len()]
    } else {
        drawn
    }
}

/// The parameter that a pin holds.
fn held(pin: u64) -> usize {
    pin.min(3) as usize
}

/// Numbers that branch or overflow somewhere.
const SPECIAL: [f64; 16] = [
    0.0,
    -0.0,
    1.0,
    -1.0,
    f64::NAN,
    f64::INFINITY,
    f64::NEG_INFINITY,
    5e-324,
    -5e-324,
    f64::MIN_POSITIVE,
    1e300,
    -1e300,
    f64::MAX,
    1048576.0,
    1647099.0,
    1e-160,
];

/// One call: the patches, the tolerance, the parameters, and what a function asks beside them.
struct Call {
    kind: usize,
    step: Step,
    a: Patch,
    b: Patch,
    tol: Tolerance,
    x: [f64; 4],
    rest: [f64; 6],
}

fn unit(r: &mut Random) -> Vector3D {
    loop {
        let v = Vector3D::new(r.signed_unit(), r.signed_unit(), r.signed_unit());
        let m = v.magnitude();
        if (0.1..=1.0).contains(&m) {
            return v * (1.0 / m);
        }
    }
}

/// Two directions at right angles to `z` and to each other.
fn beside(r: &mut Random, z: Vector3D) -> (Vector3D, Vector3D) {
    loop {
        let c = z.cross(unit(r));
        if c.magnitude() > 0.1 {
            let x = c * (1.0 / c.magnitude());
            return (x, z.cross(x));
        }
    }
}

fn frame(r: &mut Random) -> Frame3D {
    let origin = Point3D::new(r.signed_unit(), r.signed_unit(), r.signed_unit());
    if r.one_in(4) {
        let (x, y, z) = (
            Vector3D::new(1.0, 0.0, 0.0),
            Vector3D::new(0.0, 1.0, 0.0),
            Vector3D::new(0.0, 0.0, 1.0),
        );
        let (x, y, z) = r.pick(&[(x, y, z), (y, z, x), (x, z, -y)]);
        return Frame3D { origin, x, y, z };
    }
    let z = unit(r);
    let (x, y) = beside(r, z);
    Frame3D { origin, x, y, z }
}

/// A patch whose windows let everything through.
fn patch(r: &mut Random, kind: usize) -> Patch {
    let size = 0.3 + r.signed_unit().abs() * 1.5;
    let other = if kind == 2 {
        r.signed_unit() * 1.4
    } else {
        0.1 + r.signed_unit().abs() * size
    };
    let wide = (f64::NEG_INFINITY, f64::INFINITY);
    Patch {
        kind,
        frame: frame(r),
        sizes: [size, other],
        windows: [wide, wide],
        marks: [false, false],
    }
}

/// Whether a direction is an angle.
pub(super) fn is_angle(kind: usize, k: usize) -> bool {
    kind > 0 && (k == 0 || kind == 4)
}

fn parameters(r: &mut Random, kind: usize) -> [f64; 2] {
    let v = match kind {
        3 => r.signed_unit() * 1.5,
        4 => r.signed_unit() * PI,
        _ => r.signed_unit() * 1.5,
    };
    let u = if kind == 0 {
        r.signed_unit() * 1.5
    } else {
        r.signed_unit() * PI
    };
    [u, v]
}

/// Moves the patch so that its point at `y` is `p`.
pub(super) fn through(b: &mut Patch, y: [f64; 2], p: Point3D) {
    let q = b.eval_point(y[0], y[1]);
    b.frame.origin = b.frame.origin + (p - q);
}

/// The unit tangent and normal at the parameters, and the third direction.
fn axes(s: &Patch, x: [f64; 2]) -> Option<[Vector3D; 3]> {
    let (_, [u, v]) = s.eval_d1(x[0], x[1]);
    let n = u.cross(v);
    if u.magnitude() < 1e-6 || n.magnitude() < 1e-6 {
        return None;
    }
    let t = u * (1.0 / u.magnitude());
    let n = n * (1.0 / n.magnitude());
    Some([t, n.cross(t), n])
}

/// Turns B about so that its normal at `y` is A's at `x`.
fn touch(a: &Patch, x: [f64; 2], b: &mut Patch, y: [f64; 2]) {
    if let (Some(to), Some(from)) = (axes(a, x), axes(b, y)) {
        let turned =
            |d: Vector3D| to[0] * from[0].dot(d) + to[1] * from[1].dot(d) + to[2] * from[2].dot(d);
        let f = &mut b.frame;
        (f.x, f.y, f.z) = (turned(f.x), turned(f.y), turned(f.z));
    }
}

/// A window around `at`, of a reach on each side, or with an end that a guess oversteps.
fn window(r: &mut Random, at: f64, reach: f64) -> (f64, f64) {
    let low = at - reach * r.signed_unit().abs();
    let high = at + reach * r.signed_unit().abs();
    match r.below(12) {
        0 => (f64::NEG_INFINITY, high),
        1 => (low, f64::INFINITY),
        2 => (at, at),
        3 => (at, high),
        4 => (low, at),
        _ => (low, high),
    }
}

fn windows(r: &mut Random, s: &mut Patch, at: [f64; 2], reach: f64) {
    for (k, x) in at.into_iter().enumerate() {
        s.windows[k] = window(r, x, reach);
        s.marks[k] = is_angle(s.kind, k) && r.one_in(3);
    }
}

fn tolerance(r: &mut Random) -> Tolerance {
    let confusion = match r.below(5) {
        0 => 2f64.powi(-20),
        1 | 2 => 1e-7,
        3 => 2f64.powi(-(r.below(41) as i32)),
        _ => r.scaled(-40, -1).abs(),
    };
    let angular = match r.below(6) {
        0 => r.pick(&[0.0, 1.0, 0.5, 0.1, 1e-3]),
        1 => r.scaled(-50, -1).abs(),
        _ => 1e-12,
    };
    Tolerance {
        confusion,
        angular,
        parametric: 0.0,
    }
}

/// Whole turns, so many that the angle is a large one.
pub(super) fn turns(r: &mut Random) -> f64 {
    let high = r.pick(&[20, 24, 30, 60]);
    TAU * r.scaled(18, high).trunc()
}

/// Eighths from -2 to 2, so that fractions tie.
fn eighth(r: &mut Random) -> f64 {
    (r.below(33) as f64 - 16.0) / 8.0
}

fn skew(r: &mut Random, f: &mut Frame3D) {
    let any = |r: &mut Random| Vector3D::new(eighth(r), r.signed_unit(), r.signed_unit());
    match r.below(3) {
        0 => f.x = any(r),
        1 => f.y = any(r),
        _ => (f.x, f.y, f.z) = (any(r), any(r), any(r)),
    }
}

/// Poles, an apex, or a size or direction of 0.
fn degenerate(r: &mut Random, s: &mut Patch, x: &mut [f64; 2]) {
    match r.below(4) {
        0 => x[1] = if r.one_in(2) { FRAC_PI_2 } else { -FRAC_PI_2 },
        1 => x[1] = -s.sizes[0] / s.sizes[1].sin(),
        2 => s.sizes[r.below(2)] = r.pick(&[0.0, -0.0, 5e-324]),
        _ => {
            let zero = Vector3D::new(0.0, 0.0, 0.0);
            let f = &mut s.frame;
            match r.below(3) {
                0 => f.x = zero,
                1 => f.y = zero,
                _ => f.z = zero,
            }
        }
    }
}

/// The two patches, the parameters of a point that they share, and how far the guess is off.
pub(super) fn pair(
    r: &mut Random,
    kind: usize,
    kinds: [usize; 2],
) -> (Patch, Patch, [f64; 4], f64) {
    let (mut a, mut b) = (patch(r, kinds[0]), patch(r, kinds[1]));
    let (mut x, mut y) = (parameters(r, kinds[0]), parameters(r, kinds[1]));
    if kind == 5 && kinds[0] == kinds[1] {
        (b, y) = (a, x);
    }
    if kind == 6 {
        skew(r, &mut a.frame);
        skew(r, &mut b.frame);
    }
    if kind == 7 {
        degenerate(r, &mut a, &mut x);
        if r.one_in(2) {
            degenerate(r, &mut b, &mut y);
        }
    }
    if kind == 8 {
        let far = [0.0; 3].map(|_: f64| r.signed_unit() * 1048576.0);
        a.frame.origin = Point3D::new(far[0], far[1], far[2]);
        if r.one_in(3) {
            a.sizes[0] = r.scaled(0, 19).abs();
            b.sizes[0] = r.scaled(0, 19).abs();
        }
    }
    if kind == 4 {
        touch(&a, x, &mut b, y);
    }
    if kind == 9 {
        for s in [&mut a, &mut b] {
            s.frame.origin = Point3D::new(eighth(r), eighth(r), eighth(r));
            s.sizes = [r.pick(&[0.5, 1.0, 2.0]), r.pick(&[0.25, 0.5, 1.0])];
        }
        x = [eighth(r), eighth(r)];
        y = [eighth(r), eighth(r)];
    }
    if kind != 5 || kinds[0] != kinds[1] {
        let p = a.eval_point(x[0], x[1]);
        through(&mut b, y, p);
    }
    let off = match kind {
        1 => 0.2,
        3 => 3.0,
        9 => 0.0,
        _ => r.pick(&[0.0, 1e-9, 1e-5, 1e-3, 0.05, 0.3]),
    };
    let reach = match kind {
        1 => 0.1,
        2 => 20.0,
        9 => 1.0,
        _ => 4.0,
    };
    windows(r, &mut a, x, reach);
    windows(r, &mut b, y, reach);
    if kind == 2 {
        for s in [&mut a, &mut b] {
            s.marks = [is_angle(s.kind, 0), is_angle(s.kind, 1)];
        }
    }
    (a, b, [x[0], x[1], y[0], y[1]], off)
}

/// The end of a window to land on, or a number beside it where there is none.
fn bound(r: &mut Random, a: &Patch, b: &Patch, pin: usize, x: f64) -> f64 {
    let s = if pin < 2 { a } else { b };
    let (low, high) = s.windows[pin % 2];
    let end = if r.one_in(2) { low } else { high };
    if s.marks[pin % 2] || !end.is_finite() {
        x
    } else {
        end
    }
}

/// What a function asks beside the rest: a displacement, the move's end, a plane near the meeting, or the value of the pin.
fn asked(r: &mut Random, c: &Call, at: [f64; 4]) -> [f64; 6] {
    let mut rest = [0.0; 6];
    match c.step {
        Step::Predict => rest.fill_with(|| r.scaled(-12, -3)),
        Step::Leaving if c.kind == 9 => rest.fill_with(|| eighth(r)),
        Step::Leaving => {
            let reach = r.pick(&[0.01, 0.1, 1.0, 5.0]);
            for (to, from) in rest.iter_mut().zip(c.x) {
                *to = from + reach * r.signed_unit();
            }
        }
        Step::MeetInPlane => {
            let p = c.a.eval_point(at[0], at[1]);
            let n = tangent(&c.a, &c.b, at, c.tol).unwrap_or_else(|| unit(r));
            let off = r.pick(&[0.0, 1e-6, 1e-3, 0.05]);
            let o = p + unit(r) * off;
            rest = [o.x, o.y, o.z, n.x, n.y, n.z];
        }
        Step::Land(pin) if c.kind == 11 => rest[0] = at[held(pin)],
        Step::Land(pin) => rest[0] = bound(r, &c.a, &c.b, held(pin), at[held(pin)]),
        Step::Tangent | Step::Meet => {}
    }
    rest
}

/// Writes a hostile number over a frame's number, a size, a parameter, the tolerance or what is asked beside. Windows stay fit, since the
/// Rust's `clamp` panics on others.
fn spoil(r: &mut Random, c: &mut Call) {
    for _ in 0..1 + r.below(2) {
        let x = if r.one_in(4) {
            f64::from_bits(r.bits())
        } else {
            r.pick(&SPECIAL)
        };
        let s = if r.one_in(2) { &mut c.a } else { &mut c.b };
        match r.below(9) {
            0 => s.frame.origin.x = x,
            1 => s.frame.x.y = x,
            2 => s.frame.y.z = x,
            3 => s.frame.z.x = x,
            4 => s.sizes[r.below(2)] = x,
            5 | 6 => c.x[r.below(4)] = x,
            7 => c.rest[r.below(6)] = x,
            _ => {
                if r.one_in(2) {
                    c.tol.confusion = x
                } else {
                    c.tol.angular = x
                }
            }
        }
    }
    if r.one_in(4) {
        let k = r.below(2);
        c.a.windows[k] = r.pick(&[
            (f64::INFINITY, f64::INFINITY),
            (-0.0, 0.0),
            (0.0, -0.0),
            (f64::NEG_INFINITY, f64::NEG_INFINITY),
            (-1e300, 1e300),
        ]);
    }
}

/// The call of so many: the pairs of kinds in turn.
fn call(r: &mut Random, index: u64, step: usize) -> Call {
    let kind = r.below(KINDS.len());
    let pair_index = (index % 25) as usize;
    let (mut a, mut b, mut at, off) = pair(r, kind, [pair_index / 5, pair_index % 5]);
    if kind == 12 {
        for (k, x) in at.iter_mut().enumerate() {
            let s = if k < 2 { &mut a } else { &mut b };
            if is_angle(s.kind, k % 2) {
                let out = turns(r);
                *x += out;
                s.windows[k % 2].0 += out;
                s.windows[k % 2].1 += out;
            }
        }
    }
    let mut x = at.map(|v| v + off * r.signed_unit());
    if kind == 2 && r.one_in(2) {
        // Turns off, where that does not matter.
        for (k, v) in x.iter_mut().enumerate() {
            let s = if k < 2 { &a } else { &b };
            if s.marks[k % 2] {
                *v += TAU * (r.below(7) as f64 - 3.0);
            }
        }
    }
    let step = match step {
        0 => Step::Tangent,
        1 => Step::Predict,
        2 => Step::Leaving,
        3 => Step::Meet,
        4 => Step::MeetInPlane,
        _ => Step::Land(pin(r.below(4) as u64, index)),
    };
    let tol = tolerance(r);
    let mut c = Call {
        kind,
        step,
        a,
        b,
        tol,
        x,
        rest: [0.0; 6],
    };
    if let Step::Land(pin) = step
        && kind == 11
    {
        // No call of the walk: it lands on an end of a window that is applied.
        let (k, low) = (held(pin), at[held(pin)] + r.scaled(-50, 0).abs());
        let s = if k < 2 { &mut c.a } else { &mut c.b };
        s.windows[k % 2] = (low, low + 1.0);
        s.marks[k % 2] = false;
    }
    c.rest = asked(r, &c, at);
    if kind == 10 {
        spoil(r, &mut c);
    }
    c
}

/// A call as the walk makes it, for timing: a guess off by a little, wide windows, angles marked, the default tolerance.
pub(crate) fn timed(r: &mut Random, kinds: [usize; 2], step: Step) -> Timed {
    let (mut a, mut b, at, _) = pair(r, 2, kinds);
    for (k, x) in at.into_iter().enumerate() {
        let s = if k < 2 { &mut a } else { &mut b };
        s.windows[k % 2] = (x - 20.0, x + 20.0);
    }
    let tol = Tolerance {
        confusion: 1e-7,
        angular: 1e-12,
        parametric: 0.0,
    };
    let x = at.map(|v| v + 0.01 * r.signed_unit());
    let mut c = Call {
        kind: 11,
        step,
        a,
        b,
        tol,
        x,
        rest: [0.0; 6],
    };
    c.rest = asked(r, &c, at);
    let input = input(&c);
    Timed { c, input }
}

/// A call with its numbers laid out for the proved code.
pub(crate) struct Timed {
    c: Call,
    input: [f64; INPUT],
}

impl Timed {
    /// The oracle's answer, put where ours puts its own.
    pub(crate) fn oracle(&self, output: &mut [f64; 4]) -> u64 {
        let c = &self.c;
        let [p, q, s, t, u, v] = c.rest;
        let mark = &mut Mark::default();
        let mut put = |m: Option<[f64; 4]>| {
            m.map_or(0, |y| {
                *output = y;
                1
            })
        };
        match c.step {
            Step::Tangent => put(tangent(&c.a, &c.b, c.x, c.tol).map(|d| [d.x, d.y, d.z, 0.0])),
            Step::Predict => put(Some(predict(&c.a, &c.b, c.x, Vector3D::new(p, q, s)))),
            Step::Leaving => leaving(&c.a, &c.b, c.x, [p, q, s, t]).map_or(4, |(k, bound)| {
                output[0] = bound;
                k as u64
            }),
            Step::Meet => put(meet(&c.a, &c.b, c.x, None, c.tol, Windows::Asked, mark)),
            Step::MeetInPlane => {
                let plane = (Point3D::new(p, q, s), Vector3D::new(t, u, v));
                put(meet(
                    &c.a,
                    &c.b,
                    c.x,
                    Some(plane),
                    c.tol,
                    Windows::Asked,
                    mark,
                ))
            }
            Step::Land(pin) => put(land(
                &c.a,
                &c.b,
                c.x,
                held(pin),
                p,
                c.tol,
                Windows::Asked,
                mark,
            )),
        }
    }

    pub(crate) fn ours(&self, output: &mut [f64; 4]) -> u64 {
        probe::step(self.c.step, &self.input, output)
    }
}

/// The oracle's answer: its word and the numbers written. A failed meeting's word is 2^8 times its number, 2^16 times its round
/// and 2^24 times its column.
fn answer(c: &Call, windows: Windows) -> (u64, Vec<f64>) {
    let [p, q, s, t, u, v] = c.rest;
    let mut mark = Mark::default();
    let met =
        |m: Option<[f64; 4]>, mark: Mark| m.map_or((mark.word() << 8, vec![]), |y| (1, y.to_vec()));
    match c.step {
        Step::Tangent => {
            tangent(&c.a, &c.b, c.x, c.tol).map_or((0, vec![]), |d| (1, vec![d.x, d.y, d.z]))
        }
        Step::Predict => {
            let y = predict(&c.a, &c.b, c.x, Vector3D::new(p, q, s));
            (1, y.to_vec())
        }
        Step::Leaving => leaving(&c.a, &c.b, c.x, [p, q, s, t])
            .map_or((4, vec![]), |(k, bound)| (k as u64, vec![bound])),
        Step::Meet => {
            let y = meet(&c.a, &c.b, c.x, None, c.tol, windows, &mut mark);
            met(y, mark)
        }
        Step::MeetInPlane => {
            let plane = (Point3D::new(p, q, s), Vector3D::new(t, u, v));
            let y = meet(&c.a, &c.b, c.x, Some(plane), c.tol, windows, &mut mark);
            met(y, mark)
        }
        Step::Land(pin) => {
            let y = land(&c.a, &c.b, c.x, held(pin), p, c.tol, windows, &mut mark);
            met(y, mark)
        }
    }
}

/// How many numbers a call hands in.
const INPUT: usize = 54;

/// The call's numbers, as the crate `probe` reads them.
fn input(c: &Call) -> [f64; INPUT] {
    let mut out = Vec::with_capacity(INPUT);
    for s in [&c.a, &c.b] {
        let f = &s.frame;
        out.extend([s.kind as f64, f.origin.x, f.origin.y, f.origin.z]);
        for d in [f.x, f.y, f.z] {
            out.extend([d.x, d.y, d.z]);
        }
        out.extend(s.sizes);
        for k in 0..2 {
            let (low, high) = s.windows[k];
            out.extend([low, high, f64::from(u8::from(s.marks[k]))]);
        }
    }
    out.extend([c.tol.confusion, c.tol.angular]);
    out.extend(c.x);
    out.extend(c.rest);
    out.try_into().expect("54 numbers")
}

/// What is in the output before the call, so that a word not written shows.
const UNTOUCHED: f64 = 12345.5;

fn same_words(a: &[f64], b: &[f64]) -> bool {
    a.len() == b.len() && a.iter().zip(b).all(|(x, y)| word(*x) == word(*y))
}

/// How failed meetings were told: 9 and 21 by their rounds, 21 by its columns too.
pub(super) struct Rounds {
    by_9: [u64; 33],
    by_21: [u64; 33],
    columns: [u64; 4],
    pub(super) differ: u64,
}

impl Default for Rounds {
    fn default() -> Self {
        Rounds {
            by_9: [0; 33],
            by_21: [0; 33],
            columns: [0; 4],
            differ: 0,
        }
    }
}

impl Rounds {
    /// A word's number + 2^8 times its round + 2^16 times its column, if it is 9 or 21, and whether the proved code tells it otherwise.
    pub(super) fn count(&mut self, word: u64, otherwise: bool) {
        let round = (word >> 8 & 0xff) as usize;
        match word & 0xff {
            9 => self.by_9[round] += 1,
            21 => {
                self.by_21[round] += 1;
                self.columns[(word >> 16) as usize] += 1;
            }
            _ => {}
        }
        self.differ += u64::from(otherwise);
    }

    pub(super) fn print(&self, name: &str) {
        let (nine, solve) = (
            self.by_9.iter().sum::<u64>(),
            self.by_21.iter().sum::<u64>(),
        );
        let last = |by: &[u64]| by.iter().rposition(|n| *n > 0).unwrap_or(0);
        println!(
            "{name}, number, round and column: {} compared, {} differ ({solve} by 21, {} of them in round 0, the last in round {}, at columns 0 to 3: {:?}; {nine} by 9, {} of them in round 0, {} in round 31, {} with all rounds spent)",
            nine + solve,
            self.differ,
            self.by_21[0],
            last(&self.by_21),
            self.columns,
            self.by_9[0],
            self.by_9[31],
            self.by_9[32],
        );
    }
}

/// How many landings have each pin, those above 3 together, and how many of them an answer.
#[derive(Default)]
struct Pins {
    calls: [u64; 5],
    answers: [u64; 5],
}

impl Pins {
    fn count(&mut self, step: Step, answered: bool) {
        let Step::Land(pin) = step else {
            return;
        };
        let k = pin.min(4) as usize;
        self.calls[k] += 1;
        self.answers[k] += u64::from(answered);
    }

    /// What the row of `land` says of them.
    fn note(&self) -> String {
        if self.calls == [0; 5] {
            String::new()
        } else {
            format!(
                "; pins 0 to 3 and above: {:?}, with an answer {:?}",
                self.calls, self.answers
            )
        }
    }
}

/// The word as the Rust has it: every failed meeting is its one `None`.
fn as_the_rust(said: u64) -> u64 {
    if said >= 256 { 0 } else { said }
}

/// Whether the proved code gives the Rust's answer, in bits, and leaves the rest of the output alone; and whether its whole word is this.
fn agrees(c: &Call, expected: &(u64, Vec<f64>)) -> (bool, bool) {
    let mut output = [UNTOUCHED; 6];
    let said = probe::step(c.step, &input(c), &mut output);
    let mut right = [UNTOUCHED; 6];
    right[..expected.1.len()].copy_from_slice(&expected.1);
    let rust = as_the_rust(said) == as_the_rust(expected.0) && same_words(&output, &right);
    (rust, said == expected.0)
}

/// Slices too short are answered 9, and nothing is written.
fn short_slices() -> u64 {
    let steps = [
        Step::Tangent,
        Step::Predict,
        Step::Leaving,
        Step::Meet,
        Step::MeetInPlane,
        Step::Land(0),
    ];
    let mut differ = 0;
    for step in steps {
        let numbers = [1.0; INPUT];
        let mut output = [UNTOUCHED; 4];
        let short_in = probe::step(step, &numbers[1..], &mut output);
        let short_out = probe::step(step, &numbers, &mut output[1..]);
        let touched = output.iter().any(|x| *x != UNTOUCHED);
        differ += u64::from(short_in != 9 || short_out != 9 || touched);
    }
    differ
}

fn answered(step: Step, said: u64) -> bool {
    if step == Step::Leaving {
        said < 4
    } else {
        said == 1
    }
}

/// Whether a landing's value lies inside the pin's window, or that has a mark: the walk makes no other. Other steps have no pin.
fn lands_inside(c: &Call) -> bool {
    let Step::Land(pin) = c.step else {
        return true;
    };
    let k = held(pin);
    let s = if k < 2 { &c.a } else { &c.b };
    let (low, high) = s.windows[k % 2];
    s.marks[k % 2] || low <= c.rest[0] && c.rest[0] <= high
}

/// Compares `count` calls of each function. Returns how many differ.
pub fn compare(seed: u64, count: u64) -> u64 {
    let mut differ = short_slices();
    for (step, name) in STEPS.iter().enumerate() {
        let mut r = Random::new(seed.wrapping_mul(8).wrapping_add(step as u64));
        let mut calls = [0u64; KINDS.len()];
        let mut yes = [0u64; KINDS.len()];
        let mut changed = [0u64; KINDS.len()];
        let mut changed_inside = 0u64;
        let mut pairs = [0u64; 25];
        let mut rounds = Rounds::default();
        let mut pins = Pins::default();
        let mut wrong = 0;
        for i in 0..count {
            let c = call(&mut r, i, step);
            let expected = answer(&c, Windows::Asked);
            calls[c.kind] += 1;
            if answered(c.step, expected.0) {
                yes[c.kind] += 1;
                pairs[(i % 25) as usize] += 1;
            }
            if step >= 3 {
                let as_it_was = answer(&c, Windows::Ignored);
                let same = as_the_rust(as_it_was.0) == as_the_rust(expected.0)
                    && same_words(&as_it_was.1, &expected.1);
                changed[c.kind] += u64::from(!same);
                changed_inside += u64::from(!same && lands_inside(&c));
            }
            let (rust, whole) = agrees(&c, &expected);
            rounds.count(expected.0 >> 8, rust && !whole);
            pins.count(c.step, answered(c.step, expected.0));
            if !rust {
                wrong += 1;
                if wrong <= 3 {
                    let (a, b) = (c.a.kind, c.b.kind);
                    println!(
                        "differs: {name}, {}, kinds {a} and {b}: {:?} expected {expected:?}",
                        KINDS[c.kind],
                        input(&c)
                    );
                }
            }
        }
        let (all, least) = (yes.iter().sum::<u64>(), pairs.iter().min().unwrap_or(&0));
        let turned: u64 = changed.iter().sum();
        let tested = if step >= 3 {
            format!(
                "; the window test changes {turned}, {changed_inside} of them with no pin or with one inside its window"
            )
        } else {
            String::new()
        };
        println!(
            "{name}: {count} compared, {wrong} differ ({all} with an answer, of a pair of kinds at least {least}{tested}{})",
            pins.note()
        );
        for (k, kind) in KINDS.iter().enumerate() {
            println!(
                "  {kind}: {} calls, {} with an answer, {} changed by the window test",
                calls[k], yes[k], changed[k]
            );
        }
        if step >= 3 {
            rounds.print(name);
        }
        differ += wrong + rounds.differ;
    }
    differ
}

/// Words of a record of the fixed list: the function (0 to 5), the pin, the input, the answer word, the output.
const RECORD: usize = 2 + INPUT + 1 + 4;

/// Writes a record as big-endian words.
fn put(out: &mut impl Write, c: &Call, (said, numbers): (u64, Vec<f64>)) -> io::Result<()> {
    let mut words = [0u64; RECORD];
    (words[0], words[1]) = c.step.number();
    for (k, x) in input(c).iter().enumerate() {
        words[2 + k] = word(*x);
    }
    words[2 + INPUT] = said;
    for (k, x) in numbers.iter().enumerate() {
        words[3 + INPUT + k] = word(*x);
    }
    words
        .iter()
        .try_for_each(|w| out.write_all(&w.to_be_bytes()))
}

/// How many columns the solve of a function has.
const COLUMNS: [usize; STEPS.len()] = [0, 0, 0, 3, 4, 3];

/// Writes the fixed list: `count` calls of each function with the oracle's answers, then three more for each column at which its solve can
/// give up.
pub fn record(seed: u64, count: u64) -> io::Result<()> {
    let mut out = io::stdout().lock();
    for (step, columns) in COLUMNS.into_iter().enumerate() {
        let mut r = Random::new(seed.wrapping_mul(8).wrapping_add(step as u64));
        for i in 0..count {
            let c = call(&mut r, i, step);
            put(&mut out, &c, answer(&c, Windows::Asked))?;
        }
        let mut wanted = vec![3; columns];
        let mut i = count;
        while wanted.iter().any(|n| *n > 0) {
            let c = call(&mut r, i, step);
            i += 1;
            let told = answer(&c, Windows::Asked);
            let column = (told.0 >> 24) as usize;
            if told.0 >> 8 & 0xff == 21 && wanted[column] > 0 {
                wanted[column] -= 1;
                put(&mut out, &c, told)?;
            }
        }
    }
    Ok(())
}

#[cfg(test)]
mod tests {
    use super::*;

    /// The same plane twice, windows 0 to 1, no marks, all parameters 0.5.
    fn unit_windows(step: Step, rest: [f64; 6]) -> Call {
        let mut plane = patch(&mut Random::new(1), 0);
        plane.windows = [(0.0, 1.0); 2];
        Call {
            kind: 0,
            step,
            a: plane,
            b: plane,
            tol: Tolerance {
                confusion: 1e-7,
                angular: 1e-12,
                parametric: 0.0,
            },
            x: [0.5; 4],
            rest,
        }
    }

    #[test]
    fn the_scope_s_example_7() {
        let both = unit_windows(Step::Leaving, [1.5, 0.5, 1.5, 0.5, 0.0, 0.0]);
        let last = unit_windows(Step::Leaving, [1.5, 0.5, 0.5, -1.5, 0.0, 0.0]);
        for (c, expected) in [(both, (0, vec![1.0])), (last, (3, vec![0.0]))] {
            assert_eq!(answer(&c, Windows::Asked), expected);
            assert_eq!(agrees(&c, &expected), (true, true));
        }
    }

    fn units() -> [Vector3D; 3] {
        [[1.0, 0.0, 0.0], [0.0, 1.0, 0.0], [0.0, 0.0, 1.0]].map(|[x, y, z]| Vector3D::new(x, y, z))
    }

    /// Number, round and column of a failed meeting, as `probe` tells them.
    fn unmet(number: u64, round: u64, column: u64) -> (u64, Vec<f64>) {
        ((number << 8) + (round << 16) + (column << 24), vec![])
    }

    #[test]
    fn why_a_meeting_fails() {
        let [x, y, z] = units();
        let mut c = unit_windows(Step::Meet, [0.0; 6]);
        let origin = Point3D::new(0.0, 0.0, 0.0);
        c.a.frame = Frame3D { origin, x, y, z };
        c.a.windows = [(-1.0, 1.0); 2];
        c.x = [0.0; 4];
        // The same plane one higher: the first solve gives up.
        let mut parallel = c.a;
        parallel.frame.origin = Point3D::new(0.0, 0.0, 1.0);
        // An upright plane at x = 3: round 0 goes to the window's end, round 1 finds nothing better.
        let mut upright = c.a;
        upright.frame = Frame3D {
            origin: Point3D::new(3.0, 0.0, 0.0),
            x: y,
            y: z,
            z: x,
        };
        for (b, expected) in [(parallel, unmet(21, 0, 2)), (upright, unmet(9, 1, 0))] {
            c.b = b;
            assert_eq!(answer(&c, Windows::Asked), expected);
            assert_eq!(agrees(&c, &expected), (true, true));
        }
    }

    #[test]
    fn at_which_column_a_solve_gives_up() {
        let [x, y, z] = units();
        let plane = [0.5, 0.0, 0.0, 1.0, 0.0, 0.0];
        // Two parallel planes. Without a plane the column is the coordinate in which they are apart; with one it is v on B; in a landing
        // it is the third free parameter, or the second where that and the first are u on A and u on B.
        for ((x, y, z), step, column) in [
            ((y, z, x), Step::Meet, 0),
            ((z, x, y), Step::Meet, 1),
            ((x, y, z), Step::Meet, 2),
            ((x, y, z), Step::MeetInPlane, 3),
            ((x, y, z), Step::Land(0), 2),
            ((x, y, z), Step::Land(1), 1),
            ((x, y, z), Step::Land(2), 2),
            ((x, y, z), Step::Land(3), 2),
            ((x, y, z), Step::Land(u64::MAX), 2),
        ] {
            let mut c = unit_windows(step, plane);
            let origin = Point3D::new(0.0, 0.0, 0.0);
            c.a.frame = Frame3D { origin, x, y, z };
            c.b = c.a;
            c.b.frame.origin = origin + z;
            let expected = unmet(21, 0, column);
            assert_eq!(answer(&c, Windows::Asked), expected);
            assert_eq!(agrees(&c, &expected), (true, true));
        }
    }

    #[test]
    fn the_window_test_refuses_a_landing_off_the_pin_s_window() {
        let mut c = unit_windows(Step::Land(0), [1.5, 0.0, 0.0, 0.0, 0.0, 0.0]);
        c.b.windows = [(0.0, 2.0); 2];
        c.x = [0.5, 0.5, 1.5, 0.5];
        let met = (1, vec![1.5, 0.5, 1.5, 0.5]);
        assert_eq!(answer(&c, Windows::Ignored), met);
        assert_ne!(answer(&c, Windows::Asked), met);
        assert_eq!(agrees(&c, &answer(&c, Windows::Asked)), (true, true));
    }
}
