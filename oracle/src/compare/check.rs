//! The check: traces of the oracle, whole and damaged, and traces laid by hand on two planes; the answers, the comparison, the fixed list.

use super::jobs::{call, nudged, spoil_bytes};
use super::marching::turns;
use super::trace::{JOB, padded, put};
use super::word;
use crate::intersect::marching::Chords;
use crate::job::{BYTES, Job, Side};
use crate::random::Random;
use crate::surfaces::ParametricSurface;
use crate::trace::{WIDTH, answer as trace, unpacked};
use crate::{capi, check};
use std::f64::consts::TAU;
use std::io::{self, Write};

/// What was done to a trace, by name.
const DAMAGE: [&str; 18] = [
    "none",
    "a bit turned",
    "two points exchanged",
    "another count",
    "another start",
    "another code",
    "a number not finite",
    "the other zero",
    "a parameter at or past its window's end",
    "another surface",
    "another tolerance",
    "a slice of another length",
    "points left out",
    "a point repeated",
    "parameters moved, A's point worked out again",
    "turns added, A's points worked out again",
    "an end made the start",
    "job file",
];
const LAID: &str = "laid on two planes";

/// One call.
#[derive(Clone)]
struct Claim {
    job: Vec<u8>,
    trace: Vec<f64>,
    count: u64,
    start: u64,
    code: u64,
}

fn answer(c: &Claim) -> u64 {
    check::answer(&c.job, &c.trace, c.count, c.start, c.code)
}

/// A trace of the oracle's, its numbers alone.
fn traced(r: &mut Random, index: u64) -> Claim {
    loop {
        let c = call(r, index);
        let mut buffer = c.lent;
        let said = trace(&c.job, &mut buffer, Chords::Asked);
        if let Some((count, start, code)) = unpacked(said) {
            buffer.truncate(WIDTH * count as usize);
            return Claim {
                job: c.job,
                trace: buffer,
                count,
                start,
                code,
            };
        }
    }
}

fn edit(c: &mut Claim, change: impl FnOnce(&mut Job)) {
    let mut job = Job::read(&c.job).expect("a job that was traced");
    change(&mut job);
    c.job = job.write();
}

/// Works A's point out again at the parameters of point `i`.
fn refresh(c: &mut Claim, i: usize) {
    let a = Job::read(&c.job).expect("a job that was traced").a.patch();
    let at = WIDTH * i;
    let p = a.eval_point(c.trace[at + 3], c.trace[at + 4]);
    c.trace[at..at + 3].copy_from_slice(&[p.x, p.y, p.z]);
}

/// Copies point `from` over point `to`.
fn copy(c: &mut Claim, from: usize, to: usize) {
    let from = WIDTH * from;
    c.trace.copy_within(from..from + WIDTH, WIDTH * to);
}

const COUNTS: [u64; 13] = [
    0,
    1,
    2,
    3,
    4,
    5,
    4001,
    4002,
    1 << 61,
    1 << 63,
    u64::MAX,
    2635249153387078803,
    u64::MAX / 7,
];

fn other_count(r: &mut Random, c: &mut Claim) {
    let by = 1 + r.below(3) as u64;
    c.count = match r.below(4) {
        0 => c.count + by,
        1 => c.count.saturating_sub(by),
        2 => r.pick(&COUNTS),
        _ => r.bits(),
    };
    if c.count < 5000 && r.one_in(2) {
        c.trace.resize(WIDTH * c.count as usize, 0.25);
    }
}

/// One of the four windows without a mark.
fn past_window(r: &mut Random, c: &mut Claim, i: usize) {
    let job = Job::read(&c.job).expect("a job that was traced");
    let k = r.below(4);
    let s = if k < 2 { job.a } else { job.b };
    let end = s.numbers[14 + 2 * (k % 2) + r.below(2)];
    let x = match r.below(6) {
        0 => end,
        1 => nudged(end, 1),
        2 => nudged(end, -1),
        3 => f64::NAN,
        4 => end + r.signed_unit(),
        _ => r.pick(&[f64::INFINITY, f64::NEG_INFINITY, 1e300]),
    };
    c.trace[WIDTH * i + 3 + k] = x;
    if r.one_in(2) {
        refresh(c, i);
    }
}

fn other_surface(r: &mut Random, c: &mut Claim) {
    let (first, at) = (r.one_in(2), r.below(18));
    let by = r.pick(&[1e-12, 1e-8, 1e-3, 0.5]) * r.signed_unit();
    let other = r.below(5) as u8;
    let which = r.below(6);
    let hostile = r.pick(&[f64::NAN, f64::INFINITY, -1.0, 0.0, -0.0, 1048577.0]);
    edit(c, |job| {
        if which == 0 {
            (job.a, job.b) = (job.b, job.a);
            return;
        }
        let s = if first { &mut job.a } else { &mut job.b };
        match which {
            1 => {
                s.kind = other;
                s.marks = 0;
                let used = Side::sizes(other);
                s.numbers[12..12 + used].fill(0.75);
                s.numbers[12 + used..14].fill(0.0);
            }
            2 => s.marks ^= 1 + other % 3,
            3 => {
                if at < 12 || at >= 14 {
                    s.numbers[at] = hostile;
                }
            }
            _ => {
                if at < 12 + Side::sizes(s.kind) || at >= 14 {
                    s.numbers[at] += by;
                }
            }
        }
    });
}

/// The computed gap at a point of the trace.
fn gap(c: &Claim, i: usize) -> f64 {
    let job = Job::read(&c.job).expect("a job that was traced");
    let x = &c.trace[WIDTH * i + 3..WIDTH * i + 7];
    let (p, q) = (
        job.a.patch().eval_point(x[0], x[1]),
        job.b.patch().eval_point(x[2], x[3]),
    );
    p.distance(q)
}

fn other_tolerance(r: &mut Random, c: &mut Claim, i: usize) {
    let at_gap = gap(c, i);
    let x = match r.below(4) {
        0 => nudged(at_gap, r.below(3) as i64 - 1),
        1 => r.scaled(-42, 1).abs(),
        _ => r.pick(&[
            2f64.powi(-40),
            nudged(2f64.powi(-40), -1),
            1.0,
            nudged(1.0, 1),
            0.0,
            f64::NAN,
            -1.0,
        ]),
    };
    if r.one_in(4) {
        let angular = r.pick(&[0.0, -0.0, 1.0, nudged(1.0, 1), -5e-324, f64::NAN]);
        edit(c, |job| job.angular = angular);
    } else {
        edit(c, |job| job.confusion = x);
    }
}

/// Leaves out points behind `i`.
fn leave_out(r: &mut Random, c: &mut Claim, i: usize) {
    let points = c.count as usize;
    let out = (1 + r.below(6)).min(points - i - 1);
    c.trace.drain(WIDTH * (i + 1)..WIDTH * (i + 1 + out));
    c.count -= out as u64;
    if c.start > i as u64 {
        c.start = c.start.saturating_sub(out as u64);
    }
    c.trace.resize(WIDTH * points, 0.0);
}

fn repeat(c: &mut Claim, i: usize) {
    let at = WIDTH * i;
    let group: Vec<f64> = c.trace[at..at + WIDTH].to_vec();
    c.trace.splice(at..at, group);
    c.count += 1;
    if c.start > i as u64 {
        c.start += 1;
    }
}

/// Whole turns to every parameter, some or many, which only marked angles do not mind.
fn turn_all(r: &mut Random, c: &mut Claim) {
    let (k, some, many) = (r.below(4), TAU * (1 + r.below(3)) as f64, turns(r));
    let turns = if r.one_in(3) { many } else { some };
    for i in 0..c.count as usize {
        c.trace[WIDTH * i + 3 + k] += turns;
        refresh(c, i);
    }
}

/// Makes the closing so, or nearly.
fn close(r: &mut Random, c: &mut Claim) {
    let last = c.count as usize - 1;
    let start = r.below(last.min(6) + 1);
    if r.one_in(2) {
        copy(c, 0, last);
        (c.code, c.start) = (1, r.pick(&[0, 0, 0, 1]));
    } else {
        copy(c, start, 0);
        (c.code, c.start) = (2, start as u64);
    }
    if r.one_in(4) {
        let at = r.below(WIDTH * (last + 1));
        c.trace[at] = -c.trace[at];
    }
    if r.one_in(8) {
        for at in [0, start, last] {
            c.trace[WIDTH * at + 6] = r.pick(&[f64::NAN, -f64::NAN]);
        }
    }
}

fn other_length(r: &mut Random, c: &mut Claim, place: usize) {
    let now = c.trace.len();
    let length = r.pick(&[
        0,
        1,
        7,
        14,
        place,
        now.saturating_sub(1),
        now + 1,
        now + 100,
    ]);
    c.trace.resize(length, 0.5);
}

fn other_start(r: &mut Random, c: &mut Claim) {
    let (any, count) = (r.bits(), c.count);
    let last = count.wrapping_sub(1);
    c.start = r.pick(&[0, 1, 2, 3, c.start.wrapping_add(1), last, count, 4001, any]);
}

fn damaged(r: &mut Random, whole: &Claim, how: usize) -> Claim {
    let mut c = whole.clone();
    let points = c.count as usize;
    let (i, any) = (r.below(points), r.bits());
    let place = WIDTH * i + r.below(WIDTH);
    match how {
        1 => c.trace[place] = f64::from_bits(c.trace[place].to_bits() ^ 1 << r.below(64)),
        2 => {
            let j = r.below(points);
            for k in 0..WIDTH {
                c.trace.swap(WIDTH * i + k, WIDTH * j + k);
            }
        }
        3 => other_count(r, &mut c),
        4 => other_start(r, &mut c),
        5 => c.code = r.pick(&[0, 1, 2, 3, 256, any]),
        6 => c.trace[place] = r.pick(&[f64::NAN, -f64::NAN, f64::INFINITY, f64::NEG_INFINITY]),
        7 => {
            let zeros: Vec<usize> = (0..c.trace.len()).filter(|k| c.trace[*k] == 0.0).collect();
            if zeros.is_empty() {
                c.trace[place] = r.pick(&[0.0, -0.0]);
            } else {
                let at = r.pick(&zeros);
                c.trace[at] = -c.trace[at];
            }
        }
        8 => past_window(r, &mut c, i),
        9 => other_surface(r, &mut c),
        10 => other_tolerance(r, &mut c, i),
        11 => other_length(r, &mut c, place),
        12 => leave_out(r, &mut c, i),
        13 => repeat(&mut c, i),
        14 => {
            c.trace[WIDTH * i + 3 + r.below(4)] +=
                r.pick(&[1e-9, 1e-7, 1e-4, 0.1]) * r.signed_unit();
            refresh(&mut c, i);
        }
        15 => turn_all(r, &mut c),
        16 => close(r, &mut c),
        17 => spoil_bytes(r, &mut c.job),
        _ => {}
    }
    if how > 0 && r.one_in(6) {
        // Something more, so that refusals meet. A job file cut short stays as it is.
        match r.below(4) {
            0 => other_length(r, &mut c, place),
            1 => other_start(r, &mut c),
            2 => c.code = r.pick(&[0, 1, 2, 3, any]),
            _ if c.job.len() == BYTES => spoil_bytes(r, &mut c.job),
            _ => {}
        }
    }
    c
}

/// Points along x on two planes at right angles, the second lifted by about confusion, with chords around 0.2.
fn laid(r: &mut Random) -> Claim {
    let side = |y: [f64; 3], z: [f64; 3], lift: f64| {
        let mut numbers = [0.0; 18];
        numbers[2] = lift;
        numbers[3] = 1.0;
        numbers[6..9].copy_from_slice(&y);
        numbers[9..12].copy_from_slice(&z);
        numbers[14..].copy_from_slice(&[-1.0, 1e6, -1.0, 1.0]);
        Side {
            kind: 0,
            marks: 0,
            numbers,
        }
    };
    let confusion = r.pick(&[1e-7, 2f64.powi(-20), 1.0]);
    let lift = match r.below(3) {
        0 => 0.0,
        _ => nudged(confusion, r.below(3) as i64 - 1),
    };
    let job = Job {
        a: side([0.0, 1.0, 0.0], [0.0, 0.0, 1.0], 0.0),
        b: side(
            [0.0, 1.0, 0.0],
            [0.0, 0.0, 1.0],
            if r.one_in(4) { lift } else { 0.0 },
        ),
        confusion,
        angular: 1e-12,
        guess: [0.0; 4],
        cap: 2,
    };
    let count = match r.below(60) {
        0 => 4001,
        1 => 4002,
        _ => 3 + r.below(8),
    };
    let (mut trace, mut x) = (Vec::new(), r.pick(&[0.0, -0.0, 0.1, 0.25]));
    for _ in 0..count {
        trace.extend([x + 0.0, 0.0, 0.0, x, 0.0, x, 0.0]);
        let about = nudged(0.2, r.below(5) as i64 - 2);
        let wide = r.one_in(4);
        x += if wide {
            about
        } else {
            r.pick(&[0.0, 0.1, 0.2, 0.125])
        };
    }
    let (mut start, mut code) = (r.below(count) as u64, 0);
    if r.one_in(3) && count > 3 {
        let end = r.below(2);
        let (from, to) = if end == 0 {
            (0, count - 1)
        } else {
            (count - 1, 0)
        };
        trace.copy_within(WIDTH * from..WIDTH * from + WIDTH, WIDTH * to);
        (start, code) = if end == 0 {
            (0, 1)
        } else {
            (count as u64 - 1, 2)
        };
    }
    Claim {
        job: job.write(),
        trace,
        count: count as u64,
        start,
        code,
    }
}

/// How many claims of each damage gave each refusal; 0 is passed.
type Answers = [[u64; 20]; DAMAGE.len() + 1];

/// The claims, with what was done to each, as long as `take` asks for more: eight damages of one trace, and one claim in nine laid on planes.
fn each(seed: u64, count: u64, mut take: impl FnMut(u64, usize, &Claim) -> bool) {
    let mut r = Random::new(seed);
    let mut whole = traced(&mut r, 0);
    for i in 0..count {
        let (how, claim) = if i % 9 == 8 {
            whole = traced(&mut r, i / 9);
            (DAMAGE.len(), laid(&mut r))
        } else {
            let how = r.below(DAMAGE.len());
            (how, damaged(&mut r, &whole, how))
        };
        if !take(i, how, &claim) {
            return;
        }
    }
}

fn compare_with(seed: u64, count: u64, ours: impl Fn(&Claim) -> u64) -> u64 {
    let mut answers: Answers = [[0; 20]; DAMAGE.len() + 1];
    let mut differ = 0;
    let mut behind = 0;
    each(seed, count, |i, how, claim| {
        let expected = answer(claim);
        answers[how][(expected & 0xff) as usize] += 1;
        behind += u64::from(expected >> 32 > 0);
        let said = ours(claim);
        if said != expected {
            differ += 1;
            if differ <= 3 {
                let name = DAMAGE.get(how).unwrap_or(&LAID);
                println!("differs: claim {i}, {name}: {said:x}, expected {expected:x}");
            }
        }
        true
    });
    println!("checks: {count} compared, {differ} differ ({behind} refused behind the first point)");
    for (how, of) in answers.iter().enumerate() {
        print!("  {}: {} passed", DAMAGE.get(how).unwrap_or(&LAID), of[0]);
        for (number, times) in of.iter().enumerate().skip(1).filter(|(_, t)| **t > 0) {
            print!(", {times} refused by {number}");
        }
        println!();
    }
    differ
}

/// Compares `count` claims with the proved code. Returns how many differ.
pub fn compare(seed: u64, count: u64) -> u64 {
    compare_with(seed, count, |c| {
        capi::check(&c.job, &c.trace, c.count, c.start, c.code)
    })
}

/// Runs the oracle alone: what the claims are.
pub fn alone(seed: u64, count: u64) -> u64 {
    compare_with(seed, count, answer)
}

/// How many claims of the fixed list are answered with each number; 0 is passed.
const WANTED: [usize; 20] = [
    80, 10, 10, 10, 10, 20, 0, 0, 30, 0, 0, 0, 60, 60, 60, 60, 60, 0, 0, 10,
];

/// The most numbers lent in a claim of the fixed list.
const MOST: usize = 140;

/// The job's length, how many numbers are lent, count, start, code, the answer's word, the job, and the numbers lent.
fn one_record(out: &mut impl Write, c: &Claim, said: u64) -> io::Result<()> {
    let (bytes, lent) = (c.job.len() as u64, c.trace.len() as u64);
    put(out, &[bytes, lent, c.count, c.start, c.code, said])?;
    out.write_all(&padded(&c.job))?;
    let numbers: Vec<u64> = c.trace.iter().map(|x| word(*x)).collect();
    put(out, &numbers)
}

/// Writes the fixed list: of the generated claims with few points, `count` in each hundred of what `WANTED` says (100: as it says).
pub fn record(seed: u64, count: u64) -> io::Result<()> {
    let mut out = io::stdout().lock();
    let mut wanted = WANTED.map(|n| n * count as usize / 100);
    let mut written = Ok(());
    each(seed, u64::MAX, |_, _, c| {
        let said = answer(c);
        let left = &mut wanted[(said & 0xff) as usize];
        if *left > 0 && c.trace.len() <= MOST && c.job.len() <= JOB {
            *left -= 1;
            written = one_record(&mut out, c, said);
        }
        written.is_ok() && wanted.iter().any(|n| *n > 0)
    });
    written
}
