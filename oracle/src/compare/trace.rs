//! The public trace: generated jobs, the oracle's answers and whole buffers, the comparison and the fixed list.

use super::jobs::{Call, KINDS, call};
use super::marching::Rounds;
use super::word;
use crate::intersect::marching::Chords;
use crate::job::Job;
use crate::random::Random;
use crate::trace::{answer, as_the_rust, unpacked};
use crate::{capi, check};
use std::io::{self, Write};

fn same_words(a: &[f64], b: &[f64]) -> bool {
    a.len() == b.len() && a.iter().zip(b).all(|(x, y)| word(*x) == word(*y))
}

/// The oracle's answer and the buffer after it.
fn traced(c: &Call, chords: Chords) -> (u64, Vec<f64>) {
    let mut buffer = c.lent.clone();
    (answer(&c.job, &mut buffer, chords), buffer)
}

/// How the jobs of a kind ended: open, closed forward, closed backward, and refused by number.
#[derive(Default, Clone, Copy)]
struct Ends {
    lines: [u64; 3],
    refused: [u64; 22],
    points: u64,
}

impl Ends {
    fn count(&mut self, said: u64) {
        match unpacked(said) {
            Some((count, _, code)) => {
                self.lines[code as usize] += 1;
                self.points += count;
            }
            None => self.refused[(said & 0xff) as usize] += 1,
        }
    }

    fn print(&self, name: &str) {
        let [open, forward, backward] = self.lines;
        print!("  {name}: {open} open, {forward} closed forward, {backward} closed backward");
        for (number, times) in self.refused.iter().enumerate().filter(|(_, t)| **t > 0) {
            print!(", {times} refused by {number}");
        }
        println!();
    }
}

/// What the jobs showed.
#[derive(Default)]
struct Found {
    differ: u64,
    changed: u64,
    failing: u64,
    kinds: [Ends; KINDS.len()],
    pairs: [u64; 25],
    rounds: Rounds,
}

impl Found {
    fn print(&self, count: u64) {
        let lines: u64 = self.pairs.iter().sum();
        let least = self.pairs.iter().min().unwrap_or(&0);
        let points: u64 = self.kinds.iter().map(|e| e.points).sum();
        let of = |code: usize| self.kinds.iter().map(|e| e.lines[code]).sum::<u64>();
        println!(
            "traces: {count} jobs compared, {} differ ({lines} lines of {points} points: {} open, {} closed forward, {} closed backward, of a pair of kinds at least {least}; the chord test changes {}; the check refuses {} of the lines)",
            self.differ,
            of(0),
            of(1),
            of(2),
            self.changed,
            self.failing
        );
        for (name, ends) in KINDS.iter().zip(&self.kinds) {
            ends.print(name);
        }
    }
}

/// Whether `ours` answers as the Rust, for which 9 and 21 are one, and leaves the same buffer; and whether its whole word is this.
fn agrees(
    c: &Call,
    ours: impl Fn(&[u8], &mut [f64]) -> u64,
    said: u64,
    buffer: &[f64],
) -> (bool, bool) {
    let mut after = c.lent.clone();
    let word = ours(&c.job, &mut after);
    let rust = as_the_rust(word) == as_the_rust(said) && same_words(&after, buffer);
    (rust, word == said)
}

/// Buffers of every length from 0 to some beyond the need, for jobs that give lines. Returns how many differ.
fn every_length(seed: u64, ours: impl Fn(&[u8], &mut [f64]) -> u64) -> u64 {
    let mut r = Random::new(seed);
    let (mut compared, mut differ) = (0, 0);
    let mut jobs = 0;
    while jobs < 5 {
        let mut c = call(&mut r, 0);
        if c.lent.len() > 120 || unpacked(traced(&c, Chords::Asked).0).is_none() {
            continue;
        }
        jobs += 1;
        for length in 0..130 {
            c.lent = (0..length).map(|i| -0.5 - f64::from(i)).collect();
            let (said, buffer) = traced(&c, Chords::Asked);
            compared += 1;
            differ += u64::from(agrees(&c, &ours, said, &buffer) != (true, true));
        }
    }
    println!("lengths of the buffer: {compared} compared, {differ} differ");
    differ
}

/// Compares `count` jobs with what `ours` answers and leaves in the buffer. Returns how many differ.
fn compare_with(seed: u64, count: u64, ours: impl Fn(&[u8], &mut [f64]) -> u64) -> u64 {
    let mut r = Random::new(seed);
    let mut found = Found::default();
    for i in 0..count {
        let c = call(&mut r, i);
        let (said, buffer) = traced(&c, Chords::Asked);
        let as_it_was = traced(&c, Chords::Ignored);
        found.changed += u64::from(as_it_was.0 != said || !same_words(&as_it_was.1, &buffer));
        found.kinds[c.kind].count(said);
        if let Some((points, start, code)) = unpacked(said) {
            found.pairs[5 * usize::from(c.job[5]) + usize::from(c.job[151])] += 1;
            let passes = check::answer(&c.job, &buffer, points, start, code) == 0;
            found.failing += u64::from(!passes);
        }
        let (rust, whole) = agrees(&c, &ours, said, &buffer);
        found.rounds.count(said, rust && !whole);
        if !rust {
            found.differ += 1;
            if found.differ <= 3 {
                let (kind, job) = (KINDS[c.kind], Job::read(&c.job));
                println!(
                    "differs: job {i}, {kind}, expected {said:x}, {} lent: {job:?}",
                    buffer.len()
                );
            }
        }
    }
    found.print(count);
    found.rounds.print("traces");
    found.differ + found.failing + found.rounds.differ + every_length(seed, ours)
}

/// Compares `count` jobs with the proved code.
pub fn compare(seed: u64, count: u64) -> u64 {
    compare_with(seed, count, capi::trace)
}

/// Runs the oracle alone on `count` jobs: what they are, what the chord test changes, and whether the lines pass the check.
pub fn alone(seed: u64, count: u64) -> u64 {
    compare_with(seed, count, |job, buffer| {
        answer(job, buffer, Chords::Asked)
    })
}

/// Ways to end beside the refusals' numbers: 9 with all rounds spent, 21 in a later round than the first, 21 in the first at column 0 or 1,
/// which is added, and a line, to which its closing code is added.
const SPENT: usize = 22;
const LATER: usize = 23;
const COLUMN: usize = 24;
const LINE: usize = 26;

/// How many jobs of the fixed list end in each way.
const WANTED: [usize; 29] = [
    0, 10, 10, 10, 10, 10, 10, 10, 20, 20, 20, 40, 0, 0, 0, 0, 0, 0, 0, 10, 0, 10, 10, 10, 10, 10,
    200, 80, 50,
];

/// How a job ended.
fn end(said: u64) -> usize {
    let (round, column) = (said >> 8 & 0xff, said >> 16);
    match (unpacked(said), said & 0xff) {
        (Some((_, _, code)), _) => LINE + code as usize,
        (None, 9) if round == 32 => SPENT,
        (None, 21) if round > 0 => LATER,
        (None, 21) if column < 2 => COLUMN + column as usize,
        (None, number) => number as usize,
    }
}

/// The most numbers lent in a job of the fixed list: enough for a cap of 12, and a few behind.
const MOST: usize = 185;

/// The bytes of a job in a record, zeros behind.
pub(super) const JOB: usize = 352;

/// Writes words big-endian.
pub(super) fn put(out: &mut impl Write, words: &[u64]) -> io::Result<()> {
    words
        .iter()
        .try_for_each(|w| out.write_all(&w.to_be_bytes()))
}

/// The job's bytes, zeros behind.
pub(super) fn padded(job: &[u8]) -> Vec<u8> {
    let mut bytes = job.to_vec();
    bytes.resize(JOB, 0);
    bytes
}

/// Writes the fixed list: of the generated jobs with a small cap, `count` in each hundred of what `WANTED` says (100: as it says). A record
/// is the job's length, how many numbers are lent, the answer's word, the job, and the buffer after the call.
pub fn record(seed: u64, count: u64) -> io::Result<()> {
    let mut out = io::stdout().lock();
    let mut r = Random::new(seed);
    let mut wanted = WANTED.map(|n| n * count as usize / 100);
    let mut i = 0;
    while wanted.iter().any(|n| *n > 0) {
        let c = call(&mut r, i);
        i += 1;
        if c.lent.len() > MOST || c.job.len() > JOB {
            continue;
        }
        let (said, buffer) = traced(&c, Chords::Asked);
        let wanted = &mut wanted[end(said)];
        if *wanted == 0 {
            continue;
        }
        *wanted -= 1;
        put(&mut out, &[c.job.len() as u64, buffer.len() as u64, said])?;
        out.write_all(&padded(&c.job))?;
        let words: Vec<u64> = buffer.iter().map(|x| word(*x)).collect();
        put(&mut out, &words)?;
    }
    Ok(())
}

#[cfg(test)]
mod tests {
    use super::*;
    use crate::job::Side;
    use crate::trace;

    /// A plane through (0, 0, z) with the given y and z directions, u within a window, v from -1 to 1.
    fn plane(z: f64, axes: [[f64; 3]; 2], u: [f64; 2]) -> Side {
        let mut numbers = [0.0; 18];
        numbers[2] = z;
        numbers[3] = 1.0;
        numbers[6..9].copy_from_slice(&axes[0]);
        numbers[9..12].copy_from_slice(&axes[1]);
        numbers[14..].copy_from_slice(&[u[0], u[1], -1.0, 1.0]);
        Side {
            kind: 0,
            marks: 0,
            numbers,
        }
    }

    const FLAT: [[f64; 3]; 2] = [[0.0, 1.0, 0.0], [0.0, 0.0, 1.0]];
    const UPRIGHT: [[f64; 3]; 2] = [[0.0, 0.0, 1.0], [0.0, -1.0, 0.0]];

    fn said(job: &Job, lent: usize) -> u64 {
        let mut buffer = vec![0.5; lent];
        answer(&job.write(), &mut buffer, Chords::Asked)
    }

    fn crossed(u: [f64; 2]) -> Job {
        Job {
            a: plane(0.0, FLAT, u),
            b: plane(0.0, UPRIGHT, u),
            confusion: 2f64.powi(-20),
            angular: 1e-12,
            guess: [0.15, 0.0, 0.15, 0.0],
            cap: 500,
        }
    }

    #[test]
    fn the_scope_s_example_9() {
        let mut job = Job {
            a: plane(0.0, FLAT, [-1.0, 1.0]),
            b: plane(0.0, FLAT, [-1.0, 1.0]),
            confusion: 1e-7,
            angular: 1e-12,
            guess: [0.0; 4],
            cap: 2,
        };
        assert_eq!(said(&job, 35), 10);
        job.b = plane(1.0, FLAT, [-1.0, 1.0]);
        assert_eq!(said(&job, 35), 21 + (2 << 16));
    }

    #[test]
    fn the_scope_s_examples_10_and_11() {
        assert_eq!(said(&crossed([0.0, 0.3]), 7007), trace::word(5, 2, 0));
        assert_eq!(said(&crossed([0.1, 0.2]), 7007), 11);
    }

    #[test]
    fn the_scope_s_example_12() {
        let with = |confusion: f64, cap: u16| {
            let mut job = crossed([0.0, 0.3]);
            (job.confusion, job.cap) = (confusion, cap);
            said(&job, 7007)
        };
        let least = 2f64.powi(-40);
        assert_ne!(with(least, 500), 5);
        assert_ne!(with(1.0, 500), 5);
        assert_eq!(with(least.next_down(), 500), 5);
        assert_eq!(with(1.0f64.next_up(), 500), 5);
        let cap = |n: u16| with(2f64.powi(-20), n);
        assert_eq!((cap(1), cap(2001), cap(501)), (7, 7, 8));
    }
}
