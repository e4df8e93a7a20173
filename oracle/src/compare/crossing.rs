//! The crossing: generated traces and boxes, the oracle's answers, the comparison and the fixed list.

use super::{explain, word};
use crate::capi;
use crate::intersect::marching::{Traced, segment_meets_box};
use crate::intersect::pieces::bounding_box;
use crate::math::boxtree::Aabb;
use crate::random::Random;
use crate::{Point3D, Tolerance};
use std::io::{self, Write};

pub(super) const WIDTH: usize = 7;
pub(super) const RUN: usize = 16;

/// The kinds of call, by name.
pub(super) const KINDS: [&str; 16] = [
    "walk, box near it",
    "walk, box anywhere",
    "grid, sides touching",
    "grid, sides one place off",
    "repeated points",
    "box past the end of a run",
    "far out",
    "tiny",
    "coordinate refused",
    "box refused",
    "count or length",
    "tolerance",
    "several at once",
    "box beyond a side, an edge or a corner",
    "box in the hollow of a bend",
    "box at a segment next to a run's end",
];

/// One call.
pub(super) struct Call {
    pub(super) kind: usize,
    pub(super) confusion: f64,
    pub(super) angular: f64,
    pub(super) buffer: Vec<f64>,
    pub(super) count: u64,
    pub(super) corners: Vec<f64>,
}

/// The answer word: number + 2^8 (1 if crossed).
pub(super) const CROSSED: u64 = 256;

fn is_fit(x: f64) -> bool {
    x.is_finite() && x.abs() <= 1048576.0
}

/// The refusal: corners too few are 8, then the scope's order of tests, 5, 8, 12, 18, 17; or 0.
pub(super) fn refusal(c: &Call) -> u64 {
    if c.corners.len() < 6 {
        return 8;
    }
    let count = u128::from(c.count);
    if !(2f64.powi(-40)..=1.0).contains(&c.confusion) || !(0.0..=1.0).contains(&c.angular) {
        return 5;
    }
    if (c.buffer.len() as u128) < 7 * count {
        return 8;
    }
    if !(4..=4001).contains(&count) {
        return 12;
    }
    let points = c.buffer.chunks(WIDTH).take(c.count as usize);
    if !points.flat_map(|p| &p[..3]).all(|x| is_fit(*x)) {
        return 18;
    }
    let low_above = (0..3).any(|k| c.corners[k] > c.corners[k + 3]);
    if !c.corners[..6].iter().all(|x| is_fit(*x)) || low_above {
        return 17;
    }
    0
}

pub(super) fn points(c: &Call) -> Vec<Point3D> {
    let groups = c.buffer.chunks(WIDTH).take(c.count as usize);
    groups.map(|p| Point3D::new(p[0], p[1], p[2])).collect()
}

fn corners(c: &Call) -> Aabb {
    std::array::from_fn(|k| c.corners[k])
}

/// The box grown by 8000 times confusion.
pub(super) fn grown(c: &Call) -> Aabb {
    let (b, gap) = (corners(c), 8.0 * 1000.0 * c.confusion);
    std::array::from_fn(|k| if k < 3 { b[k] - gap } else { b[k] + gap })
}

/// The oracle's answer: the refusals, then the Rust.
fn answer(c: &Call) -> u64 {
    let number = refusal(c);
    if number != 0 {
        return number;
    }
    let tol = Tolerance {
        confusion: c.confusion,
        angular: c.angular,
        parametric: 1e-9,
    };
    if Traced::of(points(c)).crosses(&corners(c), tol) {
        CROSSED
    } else {
        0
    }
}

/// What would have said yes where a box keeps it out.
#[derive(PartialEq, Debug)]
enum Kept {
    /// The segment test accepts no segment.
    Nothing,
    /// It accepts one, and the whole trace's box keeps it out.
    ByWhole,
    /// It accepts one, the whole trace's box does not keep it out, and its run's box does.
    ByRun,
}

fn kept_out(c: &Call) -> Kept {
    let (grown, p) = (grown(c), points(c));
    let outside = |k: usize| {
        let of = |x: &Point3D| [x.x, x.y, x.z][k];
        p.iter().all(|x| of(x) < grown[k]) || p.iter().all(|x| of(x) > grown[k + 3])
    };
    if !p.windows(2).any(|w| segment_meets_box(w[0], w[1], &grown)) {
        Kept::Nothing
    } else if (0..3).any(outside) {
        Kept::ByWhole
    } else {
        Kept::ByRun
    }
}

/// How many points: most often a few runs, often next to a whole number of them, now and then the most there may be.
fn count(r: &mut Random, most: usize) -> usize {
    if most > 200 && r.one_in(2000) {
        return 3990 + r.below(12);
    }
    let n = if r.one_in(2) {
        4 + r.below(30)
    } else if r.one_in(2) {
        RUN * (1 + r.below(6)) + r.below(5) - 1
    } else {
        4 + r.below(197)
    };
    n.min(most)
}

fn nudged(x: f64, by: i64) -> f64 {
    // A step of one place away from 0 or towards it; 0 becomes the least number.
    if x == 0.0 {
        return if by == 0 {
            x
        } else {
            f64::from_bits(by.unsigned_abs()).copysign(by as f64)
        };
    }
    f64::from_bits((x.to_bits() as i64 + by) as u64)
}

/// A polyline of steps of at most `step` on each axis.
fn walk(r: &mut Random, n: usize, step: f64) -> Vec<[f64; 3]> {
    let mut p = [0.0; 3].map(|_: f64| r.signed_unit() * 3.0);
    let drift = [0.0; 3].map(|_: f64| r.signed_unit());
    let mut out = Vec::with_capacity(n);
    for _ in 0..n {
        out.push(p);
        for c in 0..3 {
            if !r.one_in(6) {
                p[c] += step * (drift[c] + r.signed_unit()) * 0.5;
            }
        }
    }
    out
}

/// A polyline on the points whose coordinates are eighths, most steps along one axis.
fn grid(r: &mut Random, n: usize) -> Vec<[f64; 3]> {
    let mut p = [0.0; 3].map(|_: f64| (r.below(17) as f64 - 8.0) / 8.0);
    let mut out = Vec::with_capacity(n);
    for _ in 0..n {
        out.push(p);
        for _ in 0..1 + r.below(2) {
            let c = r.below(3);
            p[c] += (r.below(3) as f64 - 1.0) / 8.0;
        }
    }
    out
}

/// A box around a place near point `at`, of sides up to `size`.
fn near(r: &mut Random, p: &[[f64; 3]], spread: f64, size: f64) -> Vec<f64> {
    let at = p[r.below(p.len())];
    let mid = at.map(|x| x + spread * r.signed_unit());
    let half = mid.map(|_| {
        if r.one_in(3) {
            0.0
        } else {
            size * r.signed_unit().abs()
        }
    });
    let low = (0..3).map(|c| mid[c] - half[c]);
    let high: Vec<f64> = (0..3).map(|c| mid[c] + half[c]).collect();
    low.chain(high).collect()
}

/// The extent of a box on an axis: none, or some eighths.
fn thickness(r: &mut Random) -> f64 {
    if r.one_in(2) {
        0.0
    } else {
        r.below(9) as f64 / 8.0
    }
}

/// The sides on an axis of a box above or below a coordinate that meets it once grown, `by` places beside it.
fn beside(at: f64, gap: f64, by: i64, above: bool, thick: f64) -> [f64; 2] {
    if above {
        let low = nudged(at + gap, by);
        [low, low + thick]
    } else {
        let high = nudged(at - gap, by);
        [high - thick, high]
    }
}

/// A box one of whose sides, once grown, meets a coordinate of a point, `off` places beside it.
fn touching(r: &mut Random, p: &[[f64; 3]], gap: f64, off: i64) -> Vec<f64> {
    let at = p[r.below(p.len())];
    let mut b: Vec<f64> = at.iter().chain(&at).copied().collect();
    for _ in 0..1 + r.below(2) {
        let c = r.below(3);
        let by = if off == 0 {
            0
        } else {
            r.below(2 * off as usize + 1) as i64 - off
        };
        let thick = thickness(r);
        [b[c], b[c + 3]] = beside(at[c], gap, by, r.one_in(2), thick);
    }
    b
}

/// The sets of axes on which a box lies beyond the whole trace's box, a bit for each axis. Each axis is the first of two sets or more.
const BEYOND: [usize; 8] = [1, 2, 4, 4, 6, 3, 5, 7];

/// A box beyond a side of the whole trace's box, an edge or a corner: once grown it touches that box, or lies a place or some way off.
fn beyond(r: &mut Random, p: &[[f64; 3]], gap: f64) -> Vec<f64> {
    let (around, axes) = (bounding_box(p), r.pick(&BEYOND));
    let mut b = vec![0.0; 6];
    for c in 0..3 {
        let (above, thick) = (r.one_in(2), thickness(r));
        [b[c], b[c + 3]] = if axes >> c & 1 == 0 {
            let at = r.pick(p)[c];
            [at - thick, at + thick]
        } else {
            let way = if r.one_in(3) {
                r.signed_unit().abs()
            } else {
                0.0
            };
            let end = if above {
                around[c + 3] + way
            } else {
                around[c] - way
            };
            beside(end, gap, r.below(3) as i64 - 1, above, thick)
        };
    }
    b
}

/// Two axes, in either order.
fn two_axes(r: &mut Random) -> [usize; 2] {
    let first = r.below(3);
    [first, (first + 1 + r.below(2)) % 3]
}

/// The directions of a bend's legs in turn, on two axes: an L or stairs, a U, a zigzag.
const BENDS: [&[[f64; 2]]; 3] = [
    &[[1.0, 0.0], [0.0, 1.0]],
    &[[1.0, 0.0], [0.0, 1.0], [-1.0, 0.0], [0.0, 1.0]],
    &[[1.0, 1.0], [1.0, -1.0]],
];

/// A polyline from `p` on, of legs of so many segments each.
fn legs(
    n: usize,
    leg: usize,
    step: f64,
    bend: &[[f64; 2]],
    axes: [usize; 2],
    mut p: [f64; 3],
) -> Vec<[f64; 3]> {
    let mut out = Vec::with_capacity(n);
    for i in 0..n {
        out.push(p);
        let along = bend[i / leg % bend.len()];
        p[axes[0]] += step * along[0];
        p[axes[1]] += step * along[1];
    }
    out
}

/// A box between the two legs that meet at a corner: off both, or on an axis next to the corner once grown.
fn hollow(r: &mut Random, [from, corner, to]: [[f64; 3]; 3], gap: f64) -> Vec<f64> {
    let share = [0; 2].map(|_| 0.25 + 0.65 * r.signed_unit().abs());
    let mut b = vec![0.0; 6];
    for c in 0..3 {
        let way = share[0] * (from[c] - corner[c]) + share[1] * (to[c] - corner[c]);
        let half = (0.4 * way * r.signed_unit()).abs();
        let mid = corner[c] + way;
        [b[c], b[c + 3]] = if r.one_in(6) {
            beside(corner[c], gap, r.below(3) as i64 - 1, way > 0.0, half)
        } else {
            [mid - half, mid + half]
        };
    }
    b
}

/// A trace of legs, most often as long as a run, that bend, and a box in a bend's hollow: the whole trace's box is not apart from it, and all
/// runs' boxes are, or no segment meets it.
fn bent(r: &mut Random, n: usize, gap: f64) -> (Vec<[f64; 3]>, Vec<f64>) {
    let any = 1 + r.below(40);
    let leg = r.pick(&[RUN, RUN, RUN, 2 * RUN, n / 2, n / 3, any]);
    let leg = leg.clamp(1, (n - 1) / 2);
    let step = f64::max(r.pick(&[0.1, 0.125, 0.05]), 8.0 * gap / leg as f64);
    let step = if r.one_in(2) { step } else { -step };
    let (bend, axes) = (r.pick(&BENDS), two_axes(r));
    let start = grid(r, 1)[0];
    let p = legs(n, leg, step, bend, axes, start);
    let corner = leg * (1 + r.below((n - 2) / leg));
    let ends = [corner - leg, corner, (corner + leg).min(n - 1)];
    let b = hollow(r, ends.map(|i| p[i]), gap);
    (p, b)
}

/// A polyline round a square again and again, so that the box of each run of two segments or more holds the middle. Only the segments named
/// go through the middle, from a corner to the one across.
fn square(n: usize, across: &[usize], half: f64, axes: [usize; 2], mid: [f64; 3]) -> Vec<[f64; 3]> {
    let corners = [[-half, -half], [half, -half], [half, half], [-half, half]];
    let (mut at, mut out) = (0, Vec::with_capacity(n));
    for i in 0..n {
        let mut p = mid;
        p[axes[0]] += corners[at][0];
        p[axes[1]] += corners[at][1];
        out.push(p);
        at = (at + if across.contains(&i) { 2 } else { 1 }) % 4;
    }
    out
}

/// A trace round a square and a box in its middle, met by a segment next to a run's end, by that and a later one, or by none.
fn next_to_run_end(r: &mut Random, n: usize, gap: f64) -> (Vec<[f64; 3]>, Vec<f64>) {
    let ends = ((n + 1) / RUN).max(1);
    let first = (RUN * (1 + r.below(ends)) + r.below(5) - 2).min(n - 2);
    let later = first + 1 + r.below(20);
    let across: &[usize] = match r.below(4) {
        0 => &[],
        1 => &[first, later],
        _ => &[first],
    };
    let half = f64::max(r.pick(&[0.1, 0.0625, 0.25]), 2.0 * gap);
    let (axes, mid) = (two_axes(r), grid(r, 1)[0]);
    let p = square(n, across, half, axes, mid);
    // How far the box may reach before it, once grown, touches the square.
    let room = half - gap;
    let reach = match r.below(4) {
        0 => nudged(room, r.below(3) as i64 - 1),
        1 => 0.0,
        _ => 0.9 * room * r.signed_unit().abs(),
    };
    let (mut low, mut high) = (mid, mid);
    for c in axes {
        low[c] -= reach;
        high[c] += reach;
    }
    (p, low.into_iter().chain(high).collect())
}

/// A walk that goes along an axis to the end of a run and then off it, and a box whose grown side lies a few places past that end.
fn past_run(r: &mut Random, n: usize, gap: f64) -> (Vec<[f64; 3]>, Vec<f64>) {
    let [axis, other] = two_axes(r);
    let sign = if r.one_in(2) { 1.0 } else { -1.0 };
    let step = r.pick(&[0.1, 0.2, 0.05, 0.0625, 0.07]);
    let end = if r.one_in(3) { n - 1 } else { RUN.min(n - 1) };
    let mut p = Vec::with_capacity(n);
    for i in 0..n {
        let mut x = [0.0; 3];
        if i <= end {
            x[axis] = sign * step * (i as f64 - end as f64);
        } else {
            x[other] = 0.1;
            x[axis] = sign * 0.1 * (i - end - 1) as f64;
        }
        p.push(x);
    }
    let mut b = vec![0.0; 6];
    let side = sign * nudged(gap, r.below(9) as i64 - 2);
    b[axis] = side;
    b[axis + 3] = side;
    (p, b)
}

fn laid(r: &mut Random, p: &[[f64; 3]]) -> Vec<f64> {
    let mut out = Vec::with_capacity(p.len() * WIDTH);
    for x in p {
        out.extend(x);
        for _ in 0..4 {
            out.push(if r.one_in(40) {
                r.pick(&[f64::NAN, f64::INFINITY, 1e300])
            } else {
                r.signed_unit()
            });
        }
    }
    out
}

const WRONG: [f64; 8] = [
    f64::NAN,
    f64::INFINITY,
    f64::NEG_INFINITY,
    1048576.0000000002,
    -1048576.0000000002,
    1e300,
    -1e300,
    f64::MAX,
];

const COUNTS: [u64; 16] = [
    0,
    1,
    2,
    3,
    4,
    4001,
    4002,
    5000,
    1 << 61,
    1 << 63,
    u64::MAX,
    u64::MAX - 1,
    2635249153387078803,
    2635249153387078802,
    1317624576693539402,
    u64::MAX / 7,
];

const TOLERANCES: [f64; 15] = [
    0.0,
    -0.0,
    1.0,
    -1.0,
    f64::NAN,
    f64::INFINITY,
    f64::NEG_INFINITY,
    9.094947017729282e-13,
    9.094947017729281e-13,
    9.094947017729284e-13,
    1.0000000000000002,
    0.9999999999999999,
    5e-324,
    0.5,
    2.0,
];

fn spoil_coordinate(r: &mut Random, c: &mut Call) {
    let at = WIDTH * r.below(c.count as usize) + r.below(WIDTH);
    c.buffer[at] = r.pick(&WRONG);
}

fn spoil_box(r: &mut Random, c: &mut Call) {
    if r.one_in(2) {
        c.corners[r.below(6)] = r.pick(&WRONG);
    } else {
        let k = r.below(3);
        c.corners.swap(k, k + 3);
    }
}

fn spoil_count(r: &mut Random, c: &mut Call, most: usize) {
    if most > 200 && r.one_in(100) {
        // Numbers enough for a count at the upper end or above it.
        c.count = r.pick(&[4000, 4001, 4002, 5000]);
        c.buffer.resize(WIDTH * c.count as usize, 0.0);
        return;
    }
    match r.below(4) {
        0 => c.count = r.pick(&COUNTS),
        1 => {
            let keep = r.below(c.buffer.len() + 1);
            c.buffer.truncate(keep);
        }
        2 => {
            // One number fewer than asked, or just enough.
            let less = r.below(3);
            c.buffer.truncate(c.buffer.len() - less);
        }
        _ => c.corners.truncate(r.below(7)),
    }
}

fn spoil_tolerance(r: &mut Random, c: &mut Call) {
    if r.one_in(2) {
        c.confusion = r.pick(&TOLERANCES);
    } else {
        c.angular = r.pick(&TOLERANCES);
    }
}

fn shape(r: &mut Random, kind: usize, n: usize, gap: f64) -> (Vec<[f64; 3]>, Vec<f64>) {
    match kind {
        1 => {
            let p = walk(r, n, 0.2);
            let b = near(r, &p, 5.0, 4.0);
            (p, b)
        }
        2 | 3 => {
            let p = grid(r, n);
            let b = touching(r, &p, gap, if kind == 2 { 0 } else { 2 });
            (p, b)
        }
        4 => {
            let mut p = walk(r, n, 0.1);
            for i in 1..n {
                if r.one_in(2) {
                    p[i] = p[i - 1];
                }
            }
            let b = touching(r, &p, gap, 1);
            (p, b)
        }
        5 => past_run(r, n, gap),
        6 => {
            let far = r.pick(&[1048576.0, -1048576.0, 1048575.5, -524288.25]);
            let p: Vec<[f64; 3]> = grid(r, n)
                .into_iter()
                .map(|x| x.map(|v| (v + far).clamp(-1048576.0, 1048576.0)))
                .collect();
            let b = near(r, &p, gap * 2.0, 1.0)
                .into_iter()
                .map(|v| v.clamp(-1048576.0, 1048576.0))
                .collect();
            (p, b)
        }
        7 => {
            let scale = r.pick(&[5e-324, 1e-310, 1e-300, 1e-18]);
            let p: Vec<[f64; 3]> = grid(r, n)
                .into_iter()
                .map(|x| x.map(|v| v * 8.0 * scale))
                .collect();
            let b = touching(r, &p, gap, 3);
            (p, b)
        }
        13 => {
            let p = if r.one_in(2) {
                walk(r, n, 0.2)
            } else {
                grid(r, n)
            };
            let b = beyond(r, &p, gap);
            (p, b)
        }
        14 => bent(r, n, gap),
        15 => next_to_run_end(r, n, gap),
        _ => {
            let p = walk(r, n, 0.2);
            let b = near(r, &p, gap * 1.5 + 0.02, 0.05);
            (p, b)
        }
    }
}

pub(super) fn call(r: &mut Random, most: usize) -> Call {
    let kind = r.below(KINDS.len());
    let confusion = match r.below(4) {
        0 => 2f64.powi(-20),
        1 => 2f64.powi(-(r.below(41) as i32)),
        2 => 1e-7,
        _ => r.scaled(-40, -1).abs().min(1.0),
    };
    let n = count(r, most);
    let (p, corners) = shape(r, kind, n, 8.0 * 1000.0 * confusion);
    let mut buffer = laid(r, &p);
    if r.one_in(3) {
        let more = r.below(20).min(WIDTH * most - buffer.len());
        buffer.resize(buffer.len() + more, f64::NAN);
    }
    let mut c = Call {
        kind,
        confusion,
        angular: r.pick(&[1e-12, 0.0, 1.0, 0.5]),
        buffer,
        count: n as u64,
        corners,
    };
    if kind == 8 || kind == 12 && r.one_in(2) {
        spoil_coordinate(r, &mut c);
    }
    if kind == 9 || kind == 12 && r.one_in(2) {
        spoil_box(r, &mut c);
    }
    if kind == 11 || kind == 12 && r.one_in(2) {
        spoil_tolerance(r, &mut c);
    }
    if kind == 10 || kind == 12 && r.one_in(2) {
        spoil_count(r, &mut c, most);
    }
    c
}

/// The word of the proved crossing.
pub(super) fn said(c: &Call) -> u64 {
    capi::crossing(c.confusion, c.angular, &c.buffer, c.count, &c.corners)
}

/// Calls to time, crossed or not: walks with a box near, each with both sides' answers and reasons. Traces of the walk have some hundred points.
pub(crate) struct Timed(Call);

impl Timed {
    pub(crate) fn new(r: &mut Random) -> Timed {
        let n = 50 + r.below(200);
        let p = walk(r, n, 0.2);
        let corners = near(r, &p, 0.2, 0.2);
        Timed(Call {
            kind: 0,
            confusion: 1e-7,
            angular: 1e-12,
            buffer: laid(r, &p),
            count: n as u64,
            corners,
        })
    }

    pub(crate) fn ours(&self) -> u64 {
        said(&self.0)
    }

    pub(crate) fn oracle(&self) -> u64 {
        answer(&self.0)
    }

    pub(crate) fn explained(&self) -> u64 {
        explain::said(&self.0)
    }

    pub(crate) fn reading(&self) -> u64 {
        explain::answer(&self.0)
    }
}

/// How a kind's calls were answered.
#[derive(Default, Clone, Copy)]
struct Answers {
    crossed: u64,
    clear: u64,
    refused: [u64; 20],
    by_whole: u64,
    by_run: u64,
}

impl Answers {
    fn count(&mut self, c: &Call, word: u64) {
        match word {
            CROSSED => self.crossed += 1,
            0 => {
                self.clear += 1;
                let kept = kept_out(c);
                self.by_whole += u64::from(kept == Kept::ByWhole);
                self.by_run += u64::from(kept == Kept::ByRun);
            }
            number => self.refused[number as usize] += 1,
        }
    }
}

/// The inputs, to be printed.
pub(super) fn inputs(c: &Call) -> String {
    format!(
        "confusion {:?} angular {:?} count {} corners {:?} buffer {:?}",
        c.confusion, c.angular, c.count, c.corners, c.buffer
    )
}

/// Compares `count` calls. Returns how many differ.
pub fn compare(seed: u64, count: u64) -> u64 {
    let mut r = Random::new(seed);
    let mut answers = [Answers::default(); KINDS.len()];
    let mut wrong = 0;
    for _ in 0..count {
        let c = call(&mut r, 4001);
        let expected = answer(&c);
        answers[c.kind].count(&c, expected);
        let got = said(&c);
        if got != expected {
            wrong += 1;
            if wrong <= 3 {
                println!(
                    "differs: {}: {got} expected {expected}: {}",
                    KINDS[c.kind],
                    inputs(&c)
                );
            }
        }
    }
    let of = |part: fn(&Answers) -> u64| answers.iter().map(part).sum::<u64>();
    println!(
        "crossing: {count} compared, {wrong} differ ({} crossed, {} clear, {} refused; kept out by the whole box alone {}, by a run's box alone {})",
        of(|a| a.crossed),
        of(|a| a.clear),
        of(|a| a.refused.iter().sum()),
        of(|a| a.by_whole),
        of(|a| a.by_run)
    );
    for (k, kind) in KINDS.iter().enumerate() {
        let a = answers[k];
        let of = |n: usize| a.refused[n];
        println!(
            "  {kind}: {} crossed, {} clear (kept out by the whole box alone {}, by a run's box alone {}), refused {} by 5, {} by 8, {} by 12, {} by 18, {} by 17",
            a.crossed,
            a.clear,
            a.by_whole,
            a.by_run,
            of(5),
            of(8),
            of(12),
            of(18),
            of(17)
        );
    }
    wrong
}

/// The most points of a recorded call: three runs.
const LISTED: usize = 36;

/// Words of a record: confusion, angular, numbers lent, count, corners given, six corners, the answer, the reason, three coordinates a point.
const RECORD: usize = 13 + 3 * LISTED;

fn at(x: f64, y: f64) -> [f64; 3] {
    [x, y, 0.0]
}

/// A call at confusion 2^-20 whose box is a point.
fn at_point(p: &[[f64; 3]], to: [f64; 3]) -> Call {
    let group = |x: &[f64; 3]| [x[0], x[1], x[2], 0.0, 0.0, 0.0, 0.0];
    Call {
        kind: 5,
        confusion: 2f64.powi(-20),
        angular: 1e-12,
        buffer: p.iter().flat_map(group).collect(),
        count: p.len() as u64,
        corners: to.iter().chain(&to).copied().collect(),
    }
}

/// A place whose box, grown, starts just past 0 on the x axis.
fn just_past() -> [f64; 3] {
    at(f64::from_bits(0x3f7f_4000_0000_0001), 0.0)
}

/// The whole trace's box keeps out what the segment test accepts.
fn short_wreck() -> Call {
    at_point(&[-0.3, -0.2, -0.1, 0.0].map(|x| at(x, 0.0)), just_past())
}

/// The first run's box keeps out what the segment test accepts, and the whole trace's box does not.
fn long_wreck() -> Call {
    let mut p: Vec<[f64; 3]> = (0..=16).map(|i| at(-0.1 * (16 - i) as f64, 0.0)).collect();
    p.push(at(0.0, 0.1));
    p.push(at(0.1, 0.1));
    at_point(&p, just_past())
}

/// Boxes beyond each side of a trace's box, some edges and a corner.
fn beyond_each() -> Vec<Call> {
    let p = [0.0, 0.1, 0.2, 0.3].map(|x| [x; 3]);
    let (low, in_it, high) = (-0.1, 0.15, 0.4);
    let places = [
        [low, in_it, in_it],
        [high, in_it, in_it],
        [in_it, low, in_it],
        [in_it, high, in_it],
        [in_it, in_it, low],
        [in_it, in_it, high],
        [in_it, high, low],
        [low, in_it, high],
        [high, low, in_it],
        [low, high, low],
    ];
    places.map(|to| at_point(&p, to)).into()
}

/// Bends, as points, segments of a leg, the bend and a place in its hollow: all runs apart, one of them by a place; a box that touches a leg;
/// and one run alone not apart, none of whose segments meets the box.
fn bends() -> Vec<Call> {
    let next = just_past()[0];
    let of = [
        (33, RUN, 0, at(0.8, next)),
        (33, RUN, 0, at(0.8, next.next_down())),
        (33, RUN, 0, at(0.8, 0.8)),
        (34, RUN, 0, at(0.8, 0.8)),
        (16, 8, 0, at(0.4, 0.4)),
        (17, 8, 0, at(0.4, 0.4)),
        (18, 8, 0, at(0.4, 0.4)),
        (33, 8, 0, at(0.4, 0.4)),
        (33, 8, 0, at(1.2, 1.2)),
        (36, 11, 1, at(0.55, 0.6)),
        (33, 8, 2, at(0.8, 0.2)),
    ];
    let call = |(n, leg, bend, to)| {
        let p = legs(n, leg, 0.1, BENDS[bend], [0, 1], at(0.0, 0.0));
        at_point(&p, to)
    };
    of.map(call).into()
}

/// Boxes in the middle of a square: met by no segment, by the one named alone, or by two.
fn squares() -> Vec<Call> {
    let of: [(usize, &[usize]); 18] = [
        (16, &[]),
        (17, &[]),
        (18, &[]),
        (33, &[]),
        (34, &[]),
        (36, &[]),
        (16, &[14]),
        (17, &[15]),
        (18, &[16]),
        (36, &[0]),
        (36, &[15]),
        (36, &[16]),
        (36, &[17]),
        (36, &[31]),
        (36, &[32]),
        (36, &[34]),
        (36, &[15, 16]),
        (36, &[16, 32]),
    ];
    let middle = at(0.0, 0.0);
    let call = |(n, across)| at_point(&square(n, across, 0.1, [0, 1], middle), middle);
    of.map(call).into()
}

/// Refusals that meet: 18 before 17, each alone, and corners too few before all.
fn refused() -> Vec<Call> {
    let call = |change: fn(&mut Call)| {
        let mut c = at_point(&[0.0, 0.1, 0.2, 0.3].map(|x| at(x, 0.0)), at(0.15, 0.0));
        change(&mut c);
        c
    };
    vec![
        call(|c| c.buffer[WIDTH * 3 + 2] = f64::NAN),
        call(|c| c.corners[5] = f64::INFINITY),
        call(|c| c.corners[0] = 0.2),
        call(|c| (c.buffer[0], c.corners[0]) = (2e6, f64::NAN)),
        call(|c| (c.confusion, c.buffer[0]) = (2.0, f64::NAN)),
        call(|c| c.corners.truncate(5)),
        call(|c| (c.corners, c.confusion) = (vec![0.0; 5], f64::NAN)),
    ]
}

/// Calls that the list holds beside the generated ones: the scope's example 8, the wrecks, each end of a count and of confusion, and what
/// gives each reason and refusal.
pub(super) fn chosen() -> Vec<Call> {
    let row = [0.0, 0.1, 0.2, 0.3].map(|x| at(x, 0.0));
    let mut calls = vec![
        at_point(&row, at(0.15, 0.005)),
        at_point(&row, at(0.15, 0.01)),
        short_wreck(),
        long_wreck(),
    ];
    for count in [0, 1, 2, 3, 5, 1 << 61, u64::MAX / 7 + 1, u64::MAX] {
        let mut c = at_point(&row, at(0.15, 0.005));
        c.count = count;
        calls.push(c);
    }
    let least = 2f64.powi(-40);
    for confusion in [least, least.next_down(), 1.0, 1f64.next_up(), f64::NAN] {
        let mut c = at_point(&row, at(0.15, 0.0));
        c.confusion = confusion;
        calls.push(c);
    }
    calls.extend(beyond_each());
    calls.extend(bends());
    calls.extend(squares());
    calls.extend(refused());
    calls
}

/// Writes the fixed list: the chosen calls and `count` generated ones with the oracle's answers, as big-endian words. Parameters are left out: no answer depends on them.
pub fn record(seed: u64, count: u64) -> io::Result<()> {
    let mut out = io::stdout().lock();
    let mut r = Random::new(seed);
    let mut calls = chosen();
    calls.extend((0..count).map(|_| call(&mut r, LISTED)));
    for mut c in calls {
        for group in c.buffer.chunks_mut(WIDTH) {
            if group.len() == WIDTH {
                group[3..].fill(f64::NAN);
            }
        }
        let mut words = [0u64; RECORD];
        words[0] = word(c.confusion);
        words[1] = word(c.angular);
        words[2] = c.buffer.len() as u64;
        words[3] = c.count;
        words[4] = c.corners.len() as u64;
        for (k, x) in c.corners.iter().enumerate() {
            words[5 + k] = word(*x);
        }
        words[11] = answer(&c);
        words[12] = explain::answer(&c);
        for (i, group) in c.buffer.chunks(WIDTH).enumerate() {
            for (k, x) in group.iter().take(3).enumerate() {
                words[13 + 3 * i + k] = word(*x);
            }
        }
        for w in words {
            out.write_all(&w.to_be_bytes())?;
        }
    }
    Ok(())
}

#[cfg(test)]
mod tests {
    use super::*;

    #[test]
    fn the_whole_box_keeps_out_what_the_segment_test_accepts() {
        let c = short_wreck();
        assert_eq!(kept_out(&c), Kept::ByWhole);
        assert_eq!((answer(&c), said(&c)), (0, 0));
    }

    #[test]
    fn a_run_box_keeps_out_what_the_segment_test_accepts() {
        let c = long_wreck();
        assert_eq!(kept_out(&c), Kept::ByRun);
        assert_eq!((answer(&c), said(&c)), (0, 0));
    }
}
