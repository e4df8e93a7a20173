//! How long the proved code takes, and the Rust: the same calls on both sides, in turn, the least of many rounds.

use crate::compare::marching::{Timed, timed};
use crate::math::solve::{solve_2x2, solve_3x3, solve_4x4};
use crate::probe::{self, Step};
use crate::random::Random;
use crate::surfaces::{ParametricSurface, Patch};
use std::hint::black_box;
use std::time::Instant;

const KINDS: [&str; 5] = ["plane", "cylinder", "cone", "sphere", "torus"];

/// Nanoseconds a call of each side, the least of the rounds.
fn least<T>(
    rounds: u32,
    calls: &[T],
    ours: impl Fn(&T) -> f64,
    oracle: impl Fn(&T) -> f64,
) -> (f64, f64) {
    let pass = |f: &dyn Fn(&[T]) -> f64| {
        let start = Instant::now();
        black_box(f(calls));
        start.elapsed().as_nanos() as f64 / calls.len() as f64
    };
    let all_ours = |s: &[T]| s.iter().map(&ours).sum::<f64>();
    let all_oracle = |s: &[T]| s.iter().map(&oracle).sum::<f64>();
    let mut best = (f64::INFINITY, f64::INFINITY);
    for _ in 0..rounds {
        best.0 = best.0.min(pass(&all_ours));
        best.1 = best.1.min(pass(&all_oracle));
    }
    best
}

fn line(name: &str, (ours, oracle): (f64, f64)) {
    println!(
        "{name:40} ours {ours:9.2} ns, the Rust {oracle:9.2} ns, ratio {:.2}",
        ours / oracle
    );
}

fn array<const N: usize>(n: &[f64]) -> [f64; N] {
    std::array::from_fn(|k| n[k])
}

fn rows<const N: usize>(n: &[f64]) -> [[f64; N]; N] {
    std::array::from_fn(|i| array(&n[i * N..]))
}

fn first<const N: usize>(x: Option<[f64; N]>) -> f64 {
    x.map_or(0.0, |y| y[0])
}

/// Random systems: the matrix row by row, the right side, tol.
fn solvers(rounds: u32) {
    for n in 2..=4 {
        let mut r = Random::new(7);
        let systems: Vec<Vec<f64>> = (0..1024)
            .map(|_| {
                let mut s: Vec<f64> = (0..n * n + n).map(|_| r.signed_unit()).collect();
                s.push(1e-12);
                s
            })
            .collect();
        let ours = |s: &Vec<f64>| {
            let mut out = [0.0; 4];
            probe::solve(n, s, &mut out);
            out[0]
        };
        let oracle = |s: &Vec<f64>| {
            let (b, tol) = (&s[n * n..], s[n * n + n]);
            match n {
                2 => first(solve_2x2(rows(s), array(b), tol)),
                3 => first(solve_3x3(rows(s), array(b), tol, &mut 0)),
                _ => first(solve_4x4(rows(s), array(b), tol, &mut 0)),
            }
        };
        line(
            &format!("solve_{n}x{n}"),
            least(rounds, &systems, ours, oracle),
        );
    }
}

/// Points and derivatives, angles up to half a turn.
fn surfaces(rounds: u32) {
    for (kind, name) in KINDS.iter().enumerate() {
        let mut r = Random::new(9);
        let calls: Vec<(Vec<f64>, Patch, f64, f64)> = (0..1024)
            .map(|_| {
                let mut n: Vec<f64> = (0..12).map(|_| r.signed_unit()).collect();
                n.extend([1.5, 0.5]);
                let s = Patch::from_numbers(kind, 0, &n);
                (n, s, 3.0 * r.signed_unit(), 3.0 * r.signed_unit())
            })
            .collect();
        let k = kind as u64;
        let ours = |(n, _, u, v): &(Vec<f64>, Patch, f64, f64)| {
            let mut out = [0.0; 6];
            probe::point(k, n, *u, *v, &mut out);
            out[0]
        };
        let oracle = |(_, s, u, v): &(Vec<f64>, Patch, f64, f64)| black_box(s.eval_point(*u, *v)).x;
        line(
            &format!("point, {name}"),
            least(rounds, &calls, ours, oracle),
        );
        let ours = |(n, _, u, v): &(Vec<f64>, Patch, f64, f64)| {
            let mut out = [0.0; 6];
            probe::derivatives(k, n, *u, *v, &mut out);
            out[0]
        };
        let oracle = |(_, s, u, v): &(Vec<f64>, Patch, f64, f64)| {
            black_box([s.derivative(*u, *v, 1, 0), s.derivative(*u, *v, 0, 1)])[0].x
        };
        line(
            &format!("derivatives, {name}"),
            least(rounds, &calls, ours, oracle),
        );
    }
}

/// The steps of the walk, for pairs of kinds.
fn steps(rounds: u32) {
    let pairs = [[0, 0], [0, 1], [1, 1], [2, 3], [3, 4], [4, 4]];
    let steps: [(&str, fn(u64) -> Step); 7] = [
        ("tangent", |_| Step::Tangent),
        ("predict", |_| Step::Predict),
        ("leaving", |_| Step::Leaving),
        ("meet", |_| Step::Meet),
        ("meet_in_plane", |_| Step::MeetInPlane),
        ("land", |_| Step::Land(0)),
        ("land, pins in turn", |i| Step::Land(i % 4)),
    ];
    for (name, step) in steps {
        for kinds in pairs {
            let mut r = Random::new(11);
            let calls: Vec<Timed> = (0..512).map(|i| timed(&mut r, kinds, step(i))).collect();
            let ours = |c: &Timed| {
                let mut out = [0.0; 4];
                c.ours(&mut out) as f64 + out[0]
            };
            let oracle = |c: &Timed| {
                let mut out = [0.0; 4];
                c.oracle(&mut out) as f64 + out[0]
            };
            let [a, b] = kinds.map(|k| KINDS[k]);
            line(
                &format!("{name}, {a} and {b}"),
                least(rounds, &calls, ours, oracle),
            );
        }
    }
}

/// Prints a line for each function of a part.
pub fn run(part: &str, rounds: u32) -> bool {
    match part {
        "solve" => solvers(rounds),
        "surface" => surfaces(rounds),
        "marching" => steps(rounds),
        _ => return false,
    }
    true
}
