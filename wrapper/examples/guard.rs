//! Square roots with and without the package's guard of the floating-point mode: nanoseconds a call, the least of 200 rounds.
//! bench/mode.sh runs it.

use std::hint::black_box;
use std::time::Instant;

extern "C" {
    fn geomcore_sqrt(x: f64) -> f64;
}

const CALLS: u32 = 100_000;

fn least(f: impl Fn(f64) -> f64) -> f64 {
    let round = |_| {
        let start = Instant::now();
        for i in 0..CALLS {
            black_box(f(black_box(f64::from(i))));
        }
        start.elapsed().as_secs_f64() * 1e9 / f64::from(CALLS)
    };
    (0..200).map(round).fold(f64::INFINITY, f64::min)
}

fn main() {
    assert!(geomcore::mode_fit(), "started in another mode");
    // SAFETY: a number in, a number out.
    let plain = least(|x| unsafe { geomcore_sqrt(x) });
    println!(
        "Rust, a square root: {plain:.2} ns; by the package, mode fit {:.2} ns",
        least(geomcore::sqrt)
    );
}
