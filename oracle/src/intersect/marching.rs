// From geomcore at a20e012915, `src/intersect/marching.rs`, licensed MIT OR Apache-2.0: what one crossing and one trace need.
// `trace`, `tangent`, `predict`, `meet`, `param_bounds`, `within_bounds`, `leaving` and `land` are carried over unchanged, but for what the
// scope changes: the window test in `meet` and `land`, and where their loops and solves stand (A2, A3); in `trace` the chord test, the job's cap, the
// parameters kept beside each point, what is answered, and the arc tangent. Each changed line says so. Square roots are the hardware's,
// which round as ours do.
// `Traced::of` holds the lines of `Traced::follow` that make a trace's boxes, for a trace that is handed in; `crosses`,
// `segment_meets_box` and the constants are carried over unchanged.

use super::pieces;
use crate::math::boxtree::{Aabb, boxes_apart};
use crate::math::solve::{solve_2x2, solve_3x3, solve_4x4};
use crate::ours::atan2;
use crate::surfaces::ParametricSurface;
use crate::{Point3D, Tolerance, Vector3D};

/// The curves traced so far as polylines: the box around each, the boxes
/// around its runs of `RUN` segments, and its points.
#[derive(Default)]
pub(crate) struct Traced {
    traces: Vec<(Aabb, Vec<Aabb>, Vec<Point3D>)>,
}

impl Traced {
    /// One trace.
    pub(crate) fn of(points: Vec<Point3D>) -> Self {
        let coords: Vec<[f64; 3]> = points.iter().map(|p| [p.x, p.y, p.z]).collect();
        let runs = (1..coords.len())
            .step_by(RUN)
            .map(|k| pieces::bounding_box(&coords[k - 1..(k + RUN).min(coords.len())]))
            .collect();
        Traced {
            traces: vec![(pieces::bounding_box(&coords), runs, points)],
        }
    }

    /// Whether a traced polyline passes through the box `b`, grown by the
    /// distance its chords may stray from the curve.
    pub(crate) fn crosses(&self, b: &Aabb, tol: Tolerance) -> bool {
        // Steps keep `chord * turn` within 32 chord deviations, so a chord
        // strays at most a quarter of that from the curve.
        let gap = 8.0 * CHORD_DEVIATION * tol.confusion;
        let grown: Aabb = std::array::from_fn(|c| if c < 3 { b[c] - gap } else { b[c] + gap });
        self.traces.iter().any(|(bounds, runs, points)| {
            !boxes_apart(bounds, &grown, 0.0)
                && runs.iter().enumerate().any(|(r, run)| {
                    let first = r * RUN;
                    !boxes_apart(run, &grown, 0.0)
                        && points[first..(first + RUN + 1).min(points.len())]
                            .windows(2)
                            .any(|w| segment_meets_box(w[0], w[1], &grown))
                })
        })
    }
}

/// Segments of a traced polyline per box in [`Traced`].
const RUN: usize = 16;

/// Whether the segment from `p` to `q` meets the box `b`.
pub(crate) fn segment_meets_box(p: Point3D, q: Point3D, b: &Aabb) -> bool {
    let (from, d) = ([p.x, p.y, p.z], [q.x - p.x, q.y - p.y, q.z - p.z]);
    let (mut lo, mut hi) = (0.0f64, 1.0f64);
    for c in 0..3 {
        if d[c] == 0.0 {
            if from[c] < b[c] || from[c] > b[c + 3] {
                return false;
            }
            continue;
        }
        let (t0, t1) = ((b[c] - from[c]) / d[c], (b[c + 3] - from[c]) / d[c]);
        lo = lo.max(t0.min(t1));
        hi = hi.min(t0.max(t1));
        if lo > hi {
            return false;
        }
    }
    true
}

/// Chord deviation allowed per traced step, in multiples of
/// `tol.confusion`.
const CHORD_DEVIATION: f64 = 1000.0;

/// The Rust's `crate::tol::CONFUSION`, which is not at hand: "farther than max(confusion, 1e-7) from the last".
const CONFUSION: f64 = 1e-7;

/// Added by the scope: "Both tests also ask that every parameter lie inside its window where that has no turn mark." `Ignored` is the Rust
/// as it was, so that what the test changes can be counted.
#[derive(Clone, Copy)]
pub(crate) enum Windows {
    Asked,
    Ignored,
}

impl Windows {
    fn hold<A, B>(self, a: &A, b: &B, x: [f64; 4]) -> bool
    where
        A: ParametricSurface,
        B: ParametricSurface,
    {
        let inside =
            |k: usize| param_bounds(a, b, k).is_none_or(|(lo, hi)| lo <= x[k] && x[k] <= hi);
        match self {
            Windows::Asked => (0..4).all(inside),
            Windows::Ignored => true,
        }
    }
}

/// Added by the scope: "A point, landed or not, is kept only if its computed chord from the last is at most 0.2; else the stride is
/// shortened as after a failed landing." `Ignored` is the Rust as it was, so that what the test changes can be counted.
#[derive(Clone, Copy)]
pub(crate) enum Chords {
    Asked,
    Ignored,
}

impl Chords {
    fn hold(self, chord: f64) -> bool {
        match self {
            Chords::Asked => chord <= 0.2,
            Chords::Ignored => true,
        }
    }
}

/// Added by requests A2 and A3: where the loop of `meet` or `land` and its solve stand, so that after a `None` it says why, in which round
/// and at which column it gave up. The Rust's own ways out are as they were.
#[derive(Clone, Copy, Default)]
pub(crate) struct Mark {
    number: u64,
    round: u64,
    column: usize,
}

impl Mark {
    /// A solve that gives up here is 21; it sets the column.
    fn solving(&mut self, round: u64) {
        (self.number, self.round) = (21, round);
    }

    /// A loop that ends here, and then fails the last test, is 9, which has no column.
    fn ending(&mut self, round: u64) {
        (self.number, self.round, self.column) = (9, round, 0);
    }

    /// The refusal as the low bytes of the trace's word: number + 2^8 round + 2^16 column.
    pub(crate) fn word(self) -> u64 {
        self.number + (self.round << 8) + ((self.column as u64) << 16)
    }
}

/// What the scope adds to the answer: parameters beside each point, the start's index and the closing code.
pub(crate) struct Line {
    pub(crate) points: Vec<([f64; 4], Point3D)>,
    pub(crate) start: usize,
    pub(crate) closing: u64,
}

/// Why the Rust answers `None`.
pub(crate) enum Untraced {
    NoDirection,
    TooShort,
}

/// Trace the intersection curve through `seed` both ways. Returns its
/// points in order (a closed loop ends on its first point), or `None`
/// when fewer than four were traced.
pub(crate) fn trace<A, B>(
    a: &A,
    b: &B,
    seed: [f64; 4],
    tol: Tolerance,
    cap: usize,     // changed: added
    chords: Chords, // changed: added
) -> Result<Line, Untraced>
// changed: Option<Vec<Point3D>>
where
    A: ParametricSurface,
    B: ParametricSurface,
{
    // Chord deviation allowed per step, and the longest step.
    let chord_deviation = CHORD_DEVIATION * tol.confusion;
    const H_MAX: f64 = 0.1;
    // Turn always allowed in one step. Beyond it, a step may turn by at
    // most `CURVATURE_GROWTH` times the previous step's curvature times
    // its chord: on a smooth curve turn/chord tends to the curvature as
    // the step is halved, so the step is eventually accepted, while at a
    // crossing of two branches (where the surfaces touch) the turn onto
    // the other branch stays finite, and the trace ends there.
    const FREE_TURN: f64 = 0.05;
    const CURVATURE_GROWTH: f64 = 4.0;
    let start = a.eval_point(seed[0], seed[1]);
    let t0 = tangent(a, b, seed, tol).ok_or(Untraced::NoDirection)?; // changed: ?
    let mut halves: [Vec<([f64; 4], Point3D)>; 2] = [Vec::new(), Vec::new()]; // changed: parameters
    let mut closed = false;
    let mut closing = 0; // changed: added
    let mut unread = Mark::default(); // changed: added
    for ((half, dir), code) in halves.iter_mut().zip([1.0, -1.0]).zip([1, 2]) {
        // changed: code
        if closed {
            break;
        }
        let (mut x, mut p, mut t) = (seed, start, t0 * dir);
        let mut h = (8.0 * chord_deviation).sqrt().min(H_MAX);
        // Curvature of the last accepted step (none before the first).
        let mut last_curvature = 0.0;
        for _ in 0..cap {
            // changed: 2000
            // Predict along the tangent, correct onto both surfaces in the
            // plane normal to it; halve the step until the result stays on
            // this branch with a small chord deviation.
            let mut step = None;
            let mut edge = None;
            while h >= tol.confusion {
                let target = p + t * h;
                let guess = predict(a, b, x, t * h);
                if let Some((pin, bound)) = leaving(a, b, x, guess) {
                    // The step leaves a parameter domain: end on its edge.
                    if let Some(y) = land(a, b, guess, pin, bound, tol, Windows::Asked, &mut unread)
                    {
                        // changed: the window test, the mark
                        let q = a.eval_point(y[0], y[1]);
                        if (q - p).dot(t) >= 0.0
                            && q.distance(p) <= 2.0 * h
                            && chords.hold(q.distance(p))
                        // changed: the chord test
                        {
                            edge = Some((y, q)); // changed: parameters
                            break;
                        }
                    }
                } else if let Some(y) = meet(a, b, guess, Some((target, t)), tol, Windows::Asked, &mut unread) // changed: the window test, the mark
                    && let Some(ty) = tangent(a, b, y, tol).map(|ty| ty * dir)
                {
                    let q = a.eval_point(y[0], y[1]);
                    let chord = q.distance(p);
                    let turn = atan2(t.cross(ty).magnitude(), t.dot(ty)); // changed: ours
                    let smooth = turn <= FREE_TURN.max(CURVATURE_GROWTH * last_curvature * chord);
                    if ty.dot(t) > 0.0
                        && chord <= 2.0 * h
                        && chord * turn <= 32.0 * chord_deviation
                        && smooth
                        && chords.hold(chord)
                    // changed: the chord test
                    {
                        step = Some((y, q, ty, turn / chord.max(f64::MIN_POSITIVE)));
                        break;
                    }
                }
                h *= 0.5;
            }
            if let Some((y, q)) = edge {
                // changed: parameters
                if q.distance(p) > tol.confusion.max(CONFUSION) {
                    // changed: crate::tol::CONFUSION
                    half.push((y, q)); // changed: parameters
                }
                break;
            }
            let Some((y, q, ty, curvature)) = step else {
                break;
            };
            // Back at the seed: close the loop on it.
            let along = (start - p).dot(q - p) / (q - p).dot(q - p).max(f64::MIN_POSITIVE);
            if half.len() >= 3
                && (0.0..=1.0).contains(&along)
                && (p + (q - p) * along).distance(start)
                    <= 4.0 * chord_deviation + 10.0 * tol.confusion
            {
                if p.distance(start) < 0.1 * h {
                    half.pop();
                }
                half.push((seed, start)); // changed: parameters
                closed = true;
                closing = code; // changed: added
                break;
            }
            half.push((y, q)); // changed: parameters
            (x, p, t) = (y, q, ty);
            last_curvature = curvature;
            h = (2.0 * h)
                .min(H_MAX)
                .min((8.0 * chord_deviation / curvature.max(f64::MIN_POSITIVE)).sqrt());
        }
    }
    let [forward, backward] = halves;
    let index = backward.len(); // changed: added
    let mut points: Vec<([f64; 4], Point3D)> = backward.into_iter().rev().collect(); // changed: parameters
    points.push((seed, start)); // changed: parameters
    points.extend(forward);
    // changed: (points.len() >= 4).then_some(points)
    if points.len() < 4 {
        return Err(Untraced::TooShort);
    }
    Ok(Line {
        points,
        start: index,
        closing,
    })
}

/// Unit tangent `N1 x N2` of the intersection at parameters `x`, or `None`
/// where the surfaces are tangent or a normal degenerates.
pub(crate) fn tangent<A, B>(a: &A, b: &B, x: [f64; 4], tol: Tolerance) -> Option<Vector3D>
where
    A: ParametricSurface,
    B: ParametricSurface,
{
    let (_, [au, av]) = a.eval_d1(x[0], x[1]);
    let (_, [bu, bv]) = b.eval_d1(x[2], x[3]);
    let (na, nb) = (au.cross(av), bu.cross(bv));
    let t = na.cross(nb);
    let scale = na.magnitude() * nb.magnitude();
    if t.magnitude() <= tol.angular * scale.max(f64::MIN_POSITIVE) {
        None
    } else {
        Some(t * (1.0 / t.magnitude()))
    }
}

/// Parameters `x` moved to first order by the displacement `d` on both
/// surfaces (unchanged on a surface whose tangent plane degenerates).
pub(crate) fn predict<A, B>(a: &A, b: &B, x: [f64; 4], d: Vector3D) -> [f64; 4]
where
    A: ParametricSurface,
    B: ParametricSurface,
{
    let shift = |s: &dyn ParametricSurface, u: f64, v: f64| {
        let (_, [su, sv]) = s.eval_d1(u, v);
        let m = [[su.dot(su), su.dot(sv)], [su.dot(sv), sv.dot(sv)]];
        solve_2x2(m, [su.dot(d), sv.dot(d)], 1e-12).unwrap_or([0.0, 0.0])
    };
    let [du1, dv1] = shift(a, x[0], x[1]);
    let [du2, dv2] = shift(b, x[2], x[3]);
    [x[0] + du1, x[1] + dv1, x[2] + du2, x[3] + dv2]
}

/// Newton's method for a point on both surfaces from parameters
/// `x = [u1, v1, u2, v2]`: solves `S1(u1, v1) = S2(u2, v2)`, together with
/// `(S1 - origin) . normal = 0` when `plane` is given; without it the
/// minimum-norm step heads for the nearest intersection point. Steps are
/// halved until the residual drops, and non-periodic parameters stay in
/// their bounds. `None` when it does not converge to `confusion`.
pub(crate) fn meet<A, B>(
    a: &A,
    b: &B,
    x: [f64; 4],
    plane: Option<(Point3D, Vector3D)>,
    tol: Tolerance,
    windows: Windows, // changed: added
    mark: &mut Mark,  // changed: added
) -> Option<[f64; 4]>
where
    A: ParametricSurface,
    B: ParametricSurface,
{
    let bounded = |x: [f64; 4]| within_bounds(a, b, x);
    let residual = |x: [f64; 4]| {
        let pa = a.eval_point(x[0], x[1]);
        let f = pa - b.eval_point(x[2], x[3]);
        let r = plane.map_or(0.0, |(origin, normal)| (pa - origin).dot(normal));
        (f, r, f.dot(f) + r * r)
    };
    let mut x = bounded(x);
    let (mut f, mut r, mut merit) = residual(x);
    for round in 0..32 {
        mark.solving(round); // changed: added
        let met = f.magnitude() <= 0.1 * tol.confusion && r.abs() <= 0.1 * tol.confusion;
        if met && windows.hold(a, b, x)
        // changed: the window test
        {
            return Some(x);
        }
        let (_, [au, av]) = a.eval_d1(x[0], x[1]);
        let (_, [bu, bv]) = b.eval_d1(x[2], x[3]);
        let cols = [au, av, -bu, -bv];
        let delta = match plane {
            Some((_, normal)) => {
                let m = [
                    cols.map(|c| c.x),
                    cols.map(|c| c.y),
                    cols.map(|c| c.z),
                    [cols[0].dot(normal), cols[1].dot(normal), 0.0, 0.0],
                ];
                solve_4x4(m, [-f.x, -f.y, -f.z, -r], 1e-12, &mut mark.column)? // changed: the mark
            }
            None => {
                // Minimum-norm step `J^T y` with `J J^T y = -f`.
                let rows = [cols.map(|c| c.x), cols.map(|c| c.y), cols.map(|c| c.z)];
                let dot = |p: [f64; 4], q: [f64; 4]| (0..4).map(|k| p[k] * q[k]).sum::<f64>();
                let m = rows.map(|p| rows.map(|q| dot(p, q)));
                let y = solve_3x3(m, [-f.x, -f.y, -f.z], 1e-12, &mut mark.column)?; // changed: the mark
                cols.map(|c| c.dot(Vector3D::new(y[0], y[1], y[2])))
            }
        };
        mark.ending(round); // changed: added
        let mut scale = 1.0;
        let mut improved = false;
        for _ in 0..12 {
            let trial = bounded([0, 1, 2, 3].map(|k| x[k] + scale * delta[k]));
            let (tf, tr, tm) = residual(trial);
            if tm < merit {
                (x, f, r, merit) = (trial, tf, tr, tm);
                improved = true;
                break;
            }
            scale *= 0.5;
        }
        if !improved {
            break;
        }
        mark.ending(round + 1); // changed: added
    }
    let met = f.magnitude() <= tol.confusion && r.abs() <= tol.confusion;
    (met && windows.hold(a, b, x)).then_some(x) // changed: the window test
}

/// The bounds `(lo, hi)` of parameter `k` of `x = [u1, v1, u2, v2]`, or
/// `None` where it is periodic.
fn param_bounds<A, B>(a: &A, b: &B, k: usize) -> Option<(f64, f64)>
where
    A: ParametricSurface,
    B: ParametricSurface,
{
    let s: &dyn ParametricSurface = if k < 2 { a } else { b };
    if k.is_multiple_of(2) {
        s.u_period().is_none().then(|| s.u_bounds())
    } else {
        s.v_period().is_none().then(|| s.v_bounds())
    }
}

/// Parameters `x` with each non-periodic one clamped into its bounds.
fn within_bounds<A, B>(a: &A, b: &B, x: [f64; 4]) -> [f64; 4]
where
    A: ParametricSurface,
    B: ParametricSurface,
{
    std::array::from_fn(|k| param_bounds(a, b, k).map_or(x[k], |(lo, hi)| x[k].clamp(lo, hi)))
}

/// The parameter that the straight move from `x` to `y` takes out of its
/// bounds first, and that bound, or `None` when `y` is within them.
pub(crate) fn leaving<A, B>(a: &A, b: &B, x: [f64; 4], y: [f64; 4]) -> Option<(usize, f64)>
where
    A: ParametricSurface,
    B: ParametricSurface,
{
    let mut first: Option<(usize, f64, f64)> = None;
    for k in 0..4 {
        let Some((lo, hi)) = param_bounds(a, b, k) else {
            continue;
        };
        let bound = if y[k] > hi {
            hi
        } else if y[k] < lo {
            lo
        } else {
            continue;
        };
        let fraction = (bound - x[k]) / (y[k] - x[k]);
        if first.is_none_or(|(_, _, f)| fraction < f) {
            first = Some((k, bound, fraction));
        }
    }
    first.map(|(k, bound, _)| (k, bound))
}

/// Newton's method for a point on both surfaces with parameter `pin` of
/// `x = [u1, v1, u2, v2]` held at `value`, from `x`: solves `S1(u1, v1) =
/// S2(u2, v2)` in the three others, which stay in their bounds. `None`
/// when it does not converge to `confusion`.
pub(crate) fn land<A, B>(
    a: &A,
    b: &B,
    x: [f64; 4],
    pin: usize,
    value: f64,
    tol: Tolerance,
    windows: Windows, // changed: added
    mark: &mut Mark,  // changed: added
) -> Option<[f64; 4]>
where
    A: ParametricSurface,
    B: ParametricSurface,
{
    let free: [usize; 3] = std::array::from_fn(|i| if i < pin { i } else { i + 1 });
    let residual = |x: [f64; 4]| a.eval_point(x[0], x[1]) - b.eval_point(x[2], x[3]);
    let mut x = within_bounds(a, b, x);
    x[pin] = value;
    let mut f = residual(x);
    for round in 0..32 {
        mark.solving(round); // changed: added
        if f.magnitude() <= 0.1 * tol.confusion && windows.hold(a, b, x)
        // changed: the window test
        {
            return Some(x);
        }
        let (_, [au, av]) = a.eval_d1(x[0], x[1]);
        let (_, [bu, bv]) = b.eval_d1(x[2], x[3]);
        let cols = [au, av, -bu, -bv].map(|c| [c.x, c.y, c.z]);
        let m = std::array::from_fn(|r| free.map(|k| cols[k][r]));
        let delta = solve_3x3(m, [-f.x, -f.y, -f.z], 1e-12, &mut mark.column)?; // changed: the mark
        mark.ending(round); // changed: added
        let mut scale = 1.0;
        let mut improved = false;
        for _ in 0..12 {
            let mut trial = x;
            for (i, &k) in free.iter().enumerate() {
                trial[k] += scale * delta[i];
            }
            let trial = within_bounds(a, b, trial);
            let tf = residual(trial);
            if tf.square_magnitude() < f.square_magnitude() {
                (x, f) = (trial, tf);
                improved = true;
                break;
            }
            scale *= 0.5;
        }
        if !improved {
            break;
        }
        mark.ending(round + 1); // changed: added
    }
    (f.magnitude() <= tol.confusion && windows.hold(a, b, x)).then_some(x) // changed: the window test
}
