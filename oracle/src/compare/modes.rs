//! What the host's floating-point mode (MXCSR) does to the trace: the proved code under other modes, against its own answers in the mode
//! that a program starts with. Nothing here says what is right in another mode; docs/TRUST.md has the figures.

use super::jobs::{Call, call};
use super::word;
use crate::capi;
use crate::random::Random;
use crate::trace::unpacked;
use std::arch::asm;

const STARTS: u32 = 0x1f80;

/// Rounding, and flush to zero as `-ffast-math` sets it: of results and of operands.
const MODES: [(&str, u32); 4] = [
    ("rounding upward", 0x5f80),
    ("rounding downward", 0x3f80),
    ("rounding toward zero", 0x7f80),
    ("flush to zero", 0x9fc0),
];

extern "C" fn run(work: &mut &mut dyn FnMut()) {
    work();
}

/// Does the work under another MXCSR.
fn under(mode: u32, mut work: &mut dyn FnMut()) {
    let mut host = 0u32;
    // SAFETY: MXCSR is as it was when the block ends; `run` takes one pointer, to `work`, does not unwind, and a callee keeps r12.
    unsafe {
        asm!(
            "stmxcsr [r12]",
            "ldmxcsr [{mode}]",
            "call {run}",
            "ldmxcsr [r12]",
            mode = in(reg) &raw const mode,
            run = sym run,
            in("r12") &raw mut host,
            in("rdi") &raw mut work,
            clobber_abi("C"),
        );
    }
}

/// The answer's word and the bits of the buffer after it.
fn traced(c: &Call, mode: u32) -> (u64, Vec<u64>, Vec<f64>) {
    let (mut buffer, mut said) = (c.lent.clone(), 0);
    under(mode, &mut || said = capi::trace(&c.job, &mut buffer));
    (said, buffer.iter().map(|x| word(*x)).collect(), buffer)
}

/// What a mode changed.
#[derive(Default, Clone, Copy)]
struct Changed {
    answers: u64,
    bits: u64,
    lines: u64,
    refused: u64,
}

impl Changed {
    fn count(&mut self, c: &Call, mode: u32, first: &(u64, Vec<u64>, Vec<f64>)) {
        let (said, bits, buffer) = traced(c, mode);
        self.answers += u64::from(said != first.0);
        self.bits += u64::from(said == first.0 && bits != first.1);
        if let Some((count, start, code)) = unpacked(said) {
            self.lines += 1;
            self.refused += u64::from(capi::check(&c.job, &buffer, count, start, code) != 0);
        }
    }
}

/// Prints what each mode changes. Returns how many jobs are answered otherwise when they are asked again in the mode of the start.
pub fn compare(seed: u64, count: u64) -> u64 {
    let mut r = Random::new(seed);
    let (mut changed, mut again) = ([Changed::default(); MODES.len()], 0);
    for index in 0..count {
        let c = call(&mut r, index);
        let first = traced(&c, STARTS);
        for (of, (_, mode)) in changed.iter_mut().zip(MODES) {
            of.count(&c, mode, &first);
        }
        again += u64::from(traced(&c, STARTS).1 != first.1);
    }
    println!("the mode of the start, asked again: {count} jobs compared, {again} differ");
    for (of, (name, _)) in changed.iter().zip(MODES) {
        println!(
            "  {name}: {} other answers, {} the same answer with other bits; the check refuses {} of {} lines",
            of.answers, of.bits, of.refused, of.lines
        );
    }
    again
}
