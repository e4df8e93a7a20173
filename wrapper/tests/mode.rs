//! Every call gives the same bits whatever floating-point mode the host has set, and leaves that mode; and from several threads at once.

use geomcore::{Closing, Line};
use std::arch::asm;

/// MXCSR: rounding, flush to zero (results, operands), unmasked traps; the last as a program starts.
const MODES: [(&str, u32); 9] = [
    ("upward", 0x5f80),
    ("downward", 0x3f80),
    ("toward zero", 0x7f80),
    ("flush results to zero", 0x9f80),
    ("operands that are subnormal count as zero", 0x1fc0),
    ("both, upward", 0xdfc0),
    ("every trap unmasked", 0x0000),
    ("upward, only inexact unmasked", 0x4f80),
    ("as a program starts", 0x1f80),
];

extern "C" fn run(work: &mut &mut dyn FnMut()) {
    work();
}

/// Does the work under another MXCSR, and gives what MXCSR holds afterwards.
fn under(mode: u32, mut work: &mut dyn FnMut()) -> u32 {
    let (mut host, mut after) = (0u32, 0u32);
    // SAFETY: MXCSR is as it was when the block ends; `run` takes one pointer, to `work`, and a callee keeps r12 and r13.
    unsafe {
        asm!(
            "stmxcsr [r12]",
            "ldmxcsr [{mode}]",
            "call {run}",
            "stmxcsr [r13]",
            "ldmxcsr [r12]",
            mode = in(reg) &raw const mode,
            run = sym run,
            in("r12") &raw mut host,
            in("r13") &raw mut after,
            in("rdi") &raw mut work,
            clobber_abi("C"),
        );
    }
    after
}

/// A surface's 146 bytes: kind, marks, frame and sizes, windows.
fn surface(kind: u8, marks: u8, origin: [f64; 3], sizes: [f64; 2], window: [f64; 4]) -> Vec<u8> {
    let mut numbers = origin.to_vec();
    numbers.extend([1.0, 0.0, 0.0, 0.0, 1.0, 0.0, 0.0, 0.0, 1.0]);
    numbers.extend(sizes);
    numbers.extend(window);
    let mut bytes = vec![kind, marks];
    bytes.extend(numbers.iter().flat_map(|x| x.to_be_bytes()));
    bytes
}

/// A torus and a plane that cut each other in a loop.
fn torus_and_plane() -> Vec<u8> {
    let wide = [f64::NEG_INFINITY, f64::INFINITY];
    let torus = surface(
        4,
        3,
        [0.0; 3],
        [0.5, 0.2],
        [wide[0], wide[1], wide[0], wide[1]],
    );
    let plane = surface(0, 0, [0.0, 0.0, 0.05], [0.0; 2], [-1.0, 1.0, -1.0, 1.0]);
    let mut bytes = vec![0, 0, 1, 87, 1];
    bytes.extend(torus);
    bytes.extend(plane);
    let rest = [2f64.powi(-20), 1e-12, 0.1, 0.25, 0.69, 0.07];
    bytes.extend(rest.iter().flat_map(|x: &f64| x.to_be_bytes()));
    bytes.extend(500u16.to_be_bytes());
    bytes
}

/// The bits of what is said of a line and a box.
fn on_box(buffer: &[f64], line: Line, y: f64) -> Vec<u64> {
    let (count, low, high) = (line.count, [0.0, y, 0.0], [0.7, y, 0.1]);
    let crossed = geomcore::crossing(1e-7, 1e-12, buffer, count, low, high).unwrap();
    let reason = geomcore::explain(1e-7, 1e-12, buffer, count, low, high).unwrap();
    let stretch = geomcore::stretch(1e-7, 1e-12, buffer, count, low, high);
    assert_eq!(crossed, !stretch.is_empty());
    let mut bits = vec![u64::from(crossed)];
    bits.extend(reason.to_string().bytes().map(u64::from));
    bits.extend(stretch.iter().map(|x| x.to_bits()));
    bits
}

/// The bits of every call's answer on that job.
fn answers(job: &[u8]) -> Vec<u64> {
    let mut bits = vec![
        geomcore::sqrt(2.0).to_bits(),
        geomcore::sqrt(5e-324).to_bits(),
        geomcore::sin(0.5).to_bits(),
        geomcore::cos(1.25).to_bits(),
        geomcore::cos(1e22).to_bits(),
        geomcore::atan2(1.0, 3.0).to_bits(),
    ];
    for (at, u) in [(geomcore::SURFACE_A, 0.3), (geomcore::SURFACE_B, 1e-310)] {
        let p = geomcore::point(&job[at..], u, 0.1).unwrap();
        bits.extend(p.map(f64::to_bits));
    }
    let mut buffer = vec![0.0; geomcore::room(500)];
    let line = geomcore::trace(job, &mut buffer).unwrap();
    bits.extend([line.count as u64, line.start as u64, line.closing as u64]);
    bits.extend(buffer.iter().map(|x| x.to_bits()));
    let passed = geomcore::check(job, &buffer, line);
    bits.push(passed.map_or_else(|refused| u64::from(refused.number), |()| 0));
    bits.extend([0.1, 0.9].iter().flat_map(|y| on_box(&buffer, line, *y)));
    // a subnormal number in the file, which a mode that flushes to zero would lose
    buffer[0] = 5e-324;
    let mut file = vec![0; geomcore::file_v1_bytes(line.count)];
    bits.push(geomcore::write_v1(&buffer, line, &mut file).unwrap() as u64);
    bits.extend(file.iter().map(|byte| u64::from(*byte)));
    buffer.fill(0.0);
    assert_eq!(geomcore::read_v1(&file, &mut buffer), Ok(line));
    bits.extend(buffer.iter().map(|x| x.to_bits()));
    bits
}

#[test]
fn the_job_is_a_loop_that_passes() {
    let job = torus_and_plane();
    let mut buffer = vec![0.0; geomcore::room(500)];
    let line = geomcore::trace(&job, &mut buffer).unwrap();
    assert_eq!((line.start, line.closing), (0, Closing::Forward));
    assert!(line.count > 40);
    assert_eq!(geomcore::check(&job, &buffer, line), Ok(()));
}

#[test]
fn the_same_bits_and_the_host_s_mode_kept() {
    let job = torus_and_plane();
    let as_started = answers(&job);
    for (name, mode) in MODES {
        let mut found = Vec::new();
        let after = under(mode, &mut || found = answers(&job));
        assert_eq!(found, as_started, "{name}");
        assert_eq!(after & 0xffc0, mode, "{name}");
        let mut fit = false;
        under(mode, &mut || fit = geomcore::mode_fit());
        assert_eq!(fit, mode == 0x1f80, "{name}");
    }
}

extern "C" {
    fn geomcore_trace(job: *const u8, bytes: usize, buffer: *mut f64, lent: usize) -> u64;
    fn geomcore_point(
        surface: *const u8,
        bytes: usize,
        u: f64,
        v: f64,
        out: *mut f64,
        room: usize,
    ) -> u64;
}

/// What the guard is for: without it the line is another one under every other rounding, and a subnormal coordinate is lost.
#[test]
fn unguarded_calls_differ() {
    let job = torus_and_plane();
    let trace = |mode: u32| {
        let mut buffer = vec![0.0f64; geomcore::room(500)];
        // SAFETY: as in the package.
        under(mode, &mut || {
            _ = unsafe {
                geomcore_trace(job.as_ptr(), job.len(), buffer.as_mut_ptr(), buffer.len())
            }
        });
        buffer
    };
    let x = |mode: u32| {
        let (plane, mut p) = (&job[geomcore::SURFACE_B..], [1.0; 3]);
        // SAFETY: as in the package.
        under(mode, &mut || {
            _ = unsafe {
                geomcore_point(plane.as_ptr(), plane.len(), 1e-310, 0.1, p.as_mut_ptr(), 3)
            }
        });
        p[0]
    };
    for mode in [0x5f80, 0x3f80, 0x7f80] {
        assert_ne!(trace(mode), trace(0x1f80));
    }
    assert_eq!((x(0x1f80), x(0x9f80), x(0x1fc0)), (1e-310, 0.0, 0.0));
}

#[test]
fn several_threads_at_once() {
    let job = torus_and_plane();
    let alone = answers(&job);
    std::thread::scope(|scope| {
        for k in 0..4 {
            let (job, alone) = (&job, &alone);
            scope.spawn(move || {
                for _ in 0..50 {
                    let mut found = Vec::new();
                    under(MODES[2 * k].1, &mut || found = answers(job));
                    assert_eq!(found, *alone);
                }
            });
        }
    });
}

/// Nothing is read of a slice of no length, whatever it points at.
#[test]
fn slices_of_no_length() {
    let line = Line {
        count: 4,
        start: 0,
        closing: Closing::Open,
    };
    assert_eq!(geomcore::point(&[], 0.0, 0.0).unwrap_err().number, 19);
    assert_eq!(geomcore::trace(&[], &mut []).unwrap_err().number, 19);
    assert_eq!(geomcore::check(&[], &[], line).unwrap_err().number, 19);
    let job = torus_and_plane();
    assert_eq!(geomcore::trace(&job, &mut []).unwrap_err().number, 8);
    assert_eq!(geomcore::check(&job, &[], line).unwrap_err().number, 8);
    let crossed = geomcore::crossing(1e-7, 1e-12, &[], 4, [0.0; 3], [0.0; 3]);
    assert_eq!(crossed.unwrap_err().number, 8);
    let reason = geomcore::explain(1e-7, 1e-12, &[], 4, [0.0; 3], [0.0; 3]);
    assert_eq!(reason.unwrap_err().number, 8);
    assert!(geomcore::stretch(1e-7, 1e-12, &[], 4, [0.0; 3], [0.0; 3]).is_empty());
    let written = geomcore::write_v1(&[], line, &mut []);
    assert_eq!(written.unwrap_err().number, 8);
    assert_eq!(geomcore::read_v1(&[], &mut []).unwrap_err().number, 20);
}
