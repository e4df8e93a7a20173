//! Why a trace crosses a box or does not (A6): each reason stated by itself over the Rust's boxes, the stretch of the trace that goes with
//! it, and the comparison.

use super::crossing::{
    CROSSED, Call, KINDS, RUN, WIDTH, call, grown, inputs, points, refusal, said as crossing,
};
use super::{UNTOUCHED, word};
use crate::Point3D;
use crate::capi;
use crate::intersect::marching::segment_meets_box;
use crate::intersect::pieces::bounding_box;
use crate::math::boxtree::{Aabb, boxes_apart};
use crate::probe;
use crate::random::Random;

/// The kinds of reason; 0 stands beside a refusal.
const SEGMENT: u64 = 1;
const WHOLE_APART: u64 = 2;
const RUNS_APART: u64 = 3;
const NONE_MET: u64 = 4;

/// What the reasons are said of.
struct Reading {
    points: Vec<Point3D>,
    whole: Aabb,
    /// The box of each run, and how many segments it has.
    runs: Vec<(Aabb, usize)>,
    grown: Aabb,
}

/// A box flattened on all axes but one.
fn on(axis: usize, b: &Aabb) -> Aabb {
    std::array::from_fn(|k| if k % 3 == axis { b[k] } else { 0.0 })
}

impl Reading {
    fn of(c: &Call) -> Reading {
        let points = points(c);
        let coords: Vec<[f64; 3]> = points.iter().map(|p| [p.x, p.y, p.z]).collect();
        let run = |first: usize| {
            let held = &coords[first..(first + RUN + 1).min(coords.len())];
            (bounding_box(held), held.len() - 1)
        };
        let starts = (0..coords.len() - 1).step_by(RUN);
        Reading {
            points,
            whole: bounding_box(&coords),
            runs: starts.map(run).collect(),
            grown: grown(c),
        }
    }

    fn apart(&self, b: &Aabb) -> bool {
        boxes_apart(b, &self.grown, 0.0)
    }

    /// Whether segment i lies in a run whose box is not apart, and meets the box.
    fn met(&self, i: usize) -> bool {
        let (run, _) = &self.runs[i / RUN];
        !self.apart(run) && segment_meets_box(self.points[i], self.points[i + 1], &self.grown)
    }

    /// The first segment that counts.
    fn segment(&self) -> Option<usize> {
        let counts = |i: &usize| !self.apart(&self.whole) && self.met(*i);
        (0..self.points.len() - 1).find(counts)
    }

    /// The first axis on which the whole trace's box is apart.
    fn whole_apart(&self) -> Option<usize> {
        let apart = |c: &usize| boxes_apart(&on(*c, &self.whole), &on(*c, &self.grown), 0.0);
        (0..3).find(apart)
    }

    /// Whether the boxes of all runs are apart.
    fn runs_apart(&self) -> bool {
        self.runs.iter().all(|(run, _)| self.apart(run))
    }

    /// How many segments lie in runs whose box is not apart, if none of them met the box.
    fn none_met(&self) -> Option<usize> {
        let near = self.runs.iter().filter(|(run, _)| !self.apart(run));
        let segments = near.map(|(_, segments)| segments).sum();
        let met = (0..self.points.len() - 1).any(|i| self.met(i));
        (!met).then_some(segments)
    }
}

fn reason(kind: u64, value: usize) -> u64 {
    kind << 8 | (value as u64) << 32
}

fn kind_of(word: u64) -> u64 {
    word >> 8 & 0xff
}

/// The reading's word: number + 2^8 kind + 2^32 value, of the refusal or of the first reason that holds.
pub(super) fn answer(c: &Call) -> u64 {
    let number = refusal(c);
    if number != 0 {
        return number;
    }
    let reading = Reading::of(c);
    let crossed = reading.segment().map(|i| reason(SEGMENT, i));
    crossed
        .or_else(|| reading.whole_apart().map(|axis| reason(WHOLE_APART, axis)))
        .or_else(|| reading.runs_apart().then(|| reason(RUNS_APART, 0)))
        .or_else(|| reading.none_met().map(|n| reason(NONE_MET, n)))
        .expect("one of the reasons holds")
}

/// The word of the proved call.
pub(super) fn said(c: &Call) -> u64 {
    capi::explain(c.confusion, c.angular, &c.buffer, c.count, &c.corners)
}

/// The numbers of two points.
const TWO: usize = 2 * WIDTH;

/// How many numbers the stretch has that goes with a word, and the output after it: segment i is points i and i + 1 of the buffer.
fn stretch(c: &Call, word: u64) -> (u64, [f64; TWO]) {
    let (i, mut out) = ((word >> 32) as usize, [UNTOUCHED; TWO]);
    let points: &[f64] = match kind_of(word) {
        SEGMENT => &c.buffer[WIDTH * i..WIDTH * (i + 2)],
        _ => &[],
    };
    out[..points.len()].copy_from_slice(points);
    (points.len() as u64, out)
}

/// The same of the proved call.
fn stretch_said(c: &Call) -> (u64, [f64; TWO]) {
    let mut out = [UNTOUCHED; TWO];
    let (buffer, corners) = (&c.buffer, &c.corners);
    let said = probe::stretch(c.confusion, c.angular, buffer, c.count, corners, &mut out);
    (said, out)
}

/// What is wrong with our answer: it is not the reading's, does not go with our crossing's, or comes with another stretch.
fn difference(c: &Call, expected: u64) -> Option<String> {
    let (got, crossed) = (said(c), crossing(c));
    if got != expected {
        return Some(format!("{got:x} expected {expected:x}"));
    }
    let same = (kind_of(got) == SEGMENT) == (crossed == CROSSED) && got & 0xff == crossed & 0xff;
    if !same {
        return Some(format!("{got:x} where the crossing is {crossed:x}"));
    }
    let (expected, got) = (stretch(c, expected), stretch_said(c));
    let same = got.0 == expected.0 && got.1.map(word) == expected.1.map(word);
    (!same).then(|| format!("stretch {got:?} expected {expected:?}"))
}

/// How calls were answered.
#[derive(Default, Clone, Copy)]
struct Answers {
    segment: u64,
    /// Of these: the last of a run's 16 segments, and the first of a run but the first.
    last: u64,
    first: u64,
    /// By the axis.
    whole_apart: [u64; 3],
    runs_apart: u64,
    none_met: u64,
    /// Of these: some runs are apart.
    some_apart: u64,
    /// By the number.
    refused: [u64; 20],
}

impl Answers {
    fn count(&mut self, c: &Call, word: u64) {
        let value = (word >> 32) as usize;
        match kind_of(word) {
            SEGMENT => {
                self.segment += 1;
                self.last += u64::from(value % RUN == RUN - 1);
                self.first += u64::from(value > 0 && value % RUN == 0);
            }
            WHOLE_APART => self.whole_apart[value] += 1,
            RUNS_APART => self.runs_apart += 1,
            NONE_MET => {
                self.none_met += 1;
                self.some_apart += u64::from(word >> 32 < c.count - 1);
            }
            _ => self.refused[word as usize] += 1,
        }
    }

    /// The reasons, for a line.
    fn reasons(&self) -> String {
        let [x, y, z] = self.whole_apart;
        format!(
            "{} crossed at a segment ({} a run's last, {} a later run's first), {} the whole box apart: {x}, {y}, {z} on axis 0, 1, 2, {} all runs apart, {} none met ({} beside runs apart)",
            self.segment,
            self.last,
            self.first,
            x + y + z,
            self.runs_apart,
            self.none_met,
            self.some_apart
        )
    }
}

/// A line for each kind of call.
fn print_kinds(by_kind: &[Answers]) {
    for (kind, a) in KINDS.iter().zip(by_kind) {
        let by = [5, 8, 12, 18, 17].map(|n| format!("{} by {n}", a.refused[n]));
        println!("  {kind}: {}, refused {}", a.reasons(), by.join(", "));
    }
}

/// Compares `count` calls. Returns how many differ.
pub fn compare(seed: u64, count: u64) -> u64 {
    let mut r = Random::new(seed);
    let (mut all, mut by_kind) = (Answers::default(), [Answers::default(); KINDS.len()]);
    let mut wrong = 0;
    for _ in 0..count {
        let c = call(&mut r, 4001);
        let expected = answer(&c);
        all.count(&c, expected);
        by_kind[c.kind].count(&c, expected);
        if let Some(what) = difference(&c, expected) {
            wrong += 1;
            if wrong <= 3 {
                println!("differs: {}: {what}: {}", KINDS[c.kind], inputs(&c));
            }
        }
    }
    let refused: u64 = all.refused.iter().sum();
    println!(
        "explain: {count} compared, {wrong} differ ({}, {refused} refused)",
        all.reasons()
    );
    print_kinds(&by_kind);
    wrong
}

#[cfg(test)]
mod tests {
    use super::super::crossing::chosen;
    use super::*;

    fn words() -> Vec<u64> {
        chosen().iter().map(answer).collect()
    }

    #[test]
    fn example_8_is_met_by_its_second_segment_and_apart_on_y() {
        let expected = [reason(SEGMENT, 1), reason(WHOLE_APART, 1)];
        assert_eq!(words()[..2], expected);
    }

    #[test]
    fn the_chosen_calls_give_each_reason_and_refusal() {
        let of = |kind: u64| move |value: usize| reason(kind, value);
        let mut wanted = vec![5, 8, 12, 17, 18, reason(RUNS_APART, 0)];
        wanted.extend([0, 1, 2].map(of(WHOLE_APART)));
        wanted.extend([0, 14, 15, 16, 17, 31, 32, 34].map(of(SEGMENT)));
        wanted.extend([15, 16, 32, 35].map(of(NONE_MET)));
        let words = words();
        for word in wanted {
            assert!(words.contains(&word), "{word:x}");
        }
    }

    #[test]
    fn the_proved_call_says_the_same_of_the_chosen_calls() {
        for c in chosen() {
            assert_eq!(difference(&c, answer(&c)), None);
        }
    }
}
