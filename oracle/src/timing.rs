//! How long the public functions take beside the oracle: both sides on the same inputs in turn, the least of many rounds. Processor time of
//! this thread is measured, so that other work on the machine counts less.

use crate::compare::crossing::Timed;
use crate::compare::jobs::timed;
use crate::intersect::marching::Chords;
use crate::random::Random;
use crate::trace::{WIDTH, answer, need, unpacked};
use crate::{capi, check, file, ours};
use std::hint::black_box;

const KINDS: [&str; 5] = ["plane", "cylinder", "cone", "sphere", "torus"];

/// Seconds and nanoseconds, as the C library fills them on 64-bit Linux.
#[repr(C)]
struct Timespec {
    seconds: i64,
    nanoseconds: i64,
}

unsafe extern "C" {
    fn clock_gettime(clock: i32, at: *mut Timespec) -> i32;
}

/// Nanoseconds that this thread has run.
fn now() -> f64 {
    const CLOCK_THREAD_CPUTIME_ID: i32 = 3;
    let mut at = Timespec {
        seconds: 0,
        nanoseconds: 0,
    };
    // SAFETY: the callee fills `at` and keeps nothing.
    let failed = unsafe { clock_gettime(CLOCK_THREAD_CPUTIME_ID, &raw mut at) };
    assert_eq!(failed, 0, "no clock of the thread");
    at.seconds as f64 * 1e9 + at.nanoseconds as f64
}

/// Nanoseconds that one pass takes on each side, ours first: the least of the rounds.
fn least(rounds: u32, mut ours: impl FnMut(), mut oracle: impl FnMut()) -> [f64; 2] {
    let pass = |f: &mut dyn FnMut()| {
        let start = now();
        f();
        now() - start
    };
    let mut best = [f64::INFINITY; 2];
    for _ in 0..rounds {
        best[0] = best[0].min(pass(&mut ours));
        best[1] = best[1].min(pass(&mut oracle));
    }
    best
}

/// A row of the table: what, nanoseconds for one of `of` things on each side, the ratio.
fn row(name: &str, best: [f64; 2], of: u64) {
    let [ours, oracle] = best.map(|t| t / of as f64);
    let ratio = ours / oracle;
    println!("| {name} | {ours:.1} ns | {oracle:.1} ns | {ratio:.2} |");
}

fn table(of: &str) {
    println!("\n| {of} | ours | the Rust | ratio |\n|---|---|---|---|");
}

type One = fn(f64) -> f64;

#[inline(never)]
fn hardware_sqrt(x: f64) -> f64 {
    x.sqrt()
}

/// Square roots, sines and cosines of 4,096 numbers, sines and cosines of as many large angles, arc tangents of as many pairs, in calls that
/// do not wait for each other.
fn numbers(rounds: u32) {
    let mut r = Random::new(11);
    let mut some =
        |low: i32, high: i32| -> Vec<f64> { (0..4096).map(|_| r.scaled(low, high)).collect() };
    let (roots, angles, other) = (some(-200, 200), some(-8, 4), some(-8, 4));
    let large = some(21, 1023);
    let roots: Vec<f64> = roots.into_iter().map(f64::abs).collect();
    let sum = |f: One, of: &[f64]| {
        black_box(of.iter().map(|x| black_box(f)(*x)).sum::<f64>());
    };
    let calls: [(&str, One, One, &[f64]); 5] = [
        ("sqrt", |x| capi::geomcore_sqrt(x), hardware_sqrt, &roots),
        ("sin", |x| capi::geomcore_sin(x), ours::sin, &angles),
        ("cos", |x| capi::geomcore_cos(x), ours::cos, &angles),
        ("sin, large", |x| capi::geomcore_sin(x), ours::sin, &large),
        ("cos, large", |x| capi::geomcore_cos(x), ours::cos, &large),
    ];
    table("function, a call");
    for (name, f, g, of) in calls {
        row(name, least(rounds, || sum(f, of), || sum(g, of)), 4096);
    }
    let pairs = |f: fn(f64, f64) -> f64| {
        let all = angles.iter().zip(&other);
        black_box(all.map(|(y, x)| black_box(f)(*y, *x)).sum::<f64>());
    };
    let best = least(
        rounds,
        || pairs(|y, x| capi::geomcore_atan2(y, x)),
        || pairs(ours::atan2),
    );
    row("atan2", best, 4096);
}

/// Crossings of traces of 50 to 249 points, and the reasons for them beside the plain reading.
fn crossings(rounds: u32) {
    let mut r = Random::new(12);
    let calls: Vec<Timed> = (0..200).map(|_| Timed::new(&mut r)).collect();
    type Word = fn(&Timed) -> u64;
    let all = |f: Word| {
        black_box(calls.iter().map(f).sum::<u64>());
    };
    let both: [(&str, Word, Word); 2] = [
        ("crossing, a call", Timed::ours, Timed::oracle),
        (
            "explain, a call, beside the plain reading",
            Timed::explained,
            Timed::reading,
        ),
    ];
    for (title, ours, oracle) in both {
        assert!(calls.iter().all(|c| ours(c) == oracle(c)));
        table(title);
        let best = least(rounds, || all(ours), || all(oracle));
        row(
            "a box near a trace of 50 to 249 points",
            best,
            calls.len() as u64,
        );
    }
}

/// A job that gives a line, and the line.
struct Line {
    job: Vec<u8>,
    claim: (u64, u64, u64),
    trace: Vec<f64>,
}

/// So many jobs of a pair of kinds that give lines, on which both sides agree.
fn lines(r: &mut Random, kinds: [usize; 2], count: usize) -> Vec<Line> {
    let mut found = Vec::new();
    while found.len() < count {
        let job = timed(r, kinds);
        let (bytes, mut trace) = (job.write(), vec![0.5; need(job.cap)]);
        let said = answer(&bytes, &mut trace, Chords::Asked);
        let mut other = vec![0.5; need(job.cap)];
        assert_eq!(said, capi::trace(&bytes, &mut other));
        assert_eq!(trace, other);
        if let Some(claim) = unpacked(said) {
            trace.truncate(WIDTH * claim.0 as usize);
            found.push(Line {
                job: bytes,
                claim,
                trace,
            });
        }
    }
    found
}

fn points(of: &[Line]) -> u64 {
    of.iter().map(|l| l.claim.0).sum()
}

fn trace_times(rounds: u32, of: &[Line]) -> [f64; 2] {
    let mut buffer = vec![0.0; need(100)];
    let mut other = buffer.clone();
    let ours = || {
        of.iter()
            .for_each(|l| _ = black_box(capi::trace(&l.job, &mut buffer)))
    };
    let oracle = || {
        of.iter()
            .for_each(|l| _ = black_box(answer(&l.job, &mut other, Chords::Asked)))
    };
    least(rounds, ours, oracle)
}

fn check_times(rounds: u32, of: &[Line]) -> [f64; 2] {
    let each = |f: fn(&[u8], &[f64], u64, u64, u64) -> u64| {
        for l in of {
            let (count, start, code) = l.claim;
            assert_eq!(black_box(f(&l.job, &l.trace, count, start, code)), 0);
        }
    };
    least(rounds, || each(capi::check), || each(check::answer))
}

/// Lines of every ordered pair of kinds, cap 100, and the checks of these lines: nanoseconds a point.
fn traces(rounds: u32) {
    let mut r = Random::new(13);
    let pairs = (0..25).map(|k| [k / 5, k % 5]);
    let by_pair: Vec<([usize; 2], Vec<Line>)> = pairs.map(|p| (p, lines(&mut r, p, 20))).collect();
    let name = |p: &[usize; 2]| format!("{} and {}", KINDS[p[0]], KINDS[p[1]]);
    for (title, times) in [
        (
            "trace, a point",
            trace_times as fn(u32, &[Line]) -> [f64; 2],
        ),
        ("check, a point", check_times),
    ] {
        table(title);
        let mut all = ([0.0; 2], 0);
        for (pair, of) in &by_pair {
            let best = times(rounds, of);
            row(&name(pair), best, points(of));
            all.0[0] += best[0];
            all.0[1] += best[1];
            all.1 += points(of);
        }
        row("all together", all.0, all.1);
    }
}

type Write = fn(&[f64], u64, u64, u64, &mut [u8]) -> u64;
type Read = fn(&[u8], &mut [f64]) -> u64;

/// Trace files of the lines of ten jobs of each pair of kinds, written and read: nanoseconds a point.
fn files(rounds: u32) {
    let mut r = Random::new(14);
    let of: Vec<Line> = (0..25)
        .flat_map(|k| lines(&mut r, [k / 5, k % 5], 10))
        .collect();
    let room = 10 + 8 * need(100);
    let written = |f: Write, l: &Line, file: &mut [u8]| {
        let (count, start, code) = l.claim;
        f(&l.trace, count, start, code, file)
    };
    let whole: Vec<Vec<u8>> = of
        .iter()
        .map(|l| {
            let (mut file, mut other) = (vec![1; room], vec![1; room]);
            let said = written(capi::write, l, &mut file);
            assert_eq!(said, written(file::write, l, &mut other));
            assert_eq!(file, other);
            file.truncate((said >> 32) as usize);
            file
        })
        .collect();
    let (mut out, mut other) = (vec![1.0; need(100)], vec![1.0; need(100)]);
    for f in &whole {
        assert_eq!(capi::read(f, &mut out), file::read(f, &mut other));
        assert_eq!(out, other);
    }
    table("trace file, a point");
    let (mut a, mut b) = (vec![0; room], vec![0; room]);
    let write = |f: Write, file: &mut [u8]| {
        of.iter()
            .for_each(|l| _ = black_box(written(black_box(f), l, file)))
    };
    let best = least(
        rounds,
        || write(capi::write, &mut a),
        || write(file::write, &mut b),
    );
    row("written", best, points(&of));
    let read = |f: Read, out: &mut [f64]| {
        whole
            .iter()
            .for_each(|file| _ = black_box(black_box(f)(file, out)))
    };
    let best = least(
        rounds,
        || read(capi::read, &mut out),
        || read(file::read, &mut other),
    );
    row("read", best, points(&of));
}

/// Prints the tables. Short passes get more rounds.
pub fn run(rounds: u32) {
    numbers(100 * rounds);
    crossings(20 * rounds);
    traces(rounds);
    files(20 * rounds);
}
