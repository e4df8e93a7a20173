//! The floating-point mode (MXCSR) of the calling thread. The proofs speak of operations that round to nearest, with no flush to zero and
//! every trap masked; a host can have changed that (`fesetround`, `-ffast-math` in a part that it links, `feenableexcept`).

use std::arch::asm;

#[cfg(not(target_arch = "x86_64"))]
compile_error!("the archive that `tools/staticlib.sh capi` writes is for x86-64");

/// MXCSR as a program starts, and the bits that count: all but the flags that operations leave.
const FIT: u32 = 0x1f80;
const BITS: u32 = 0xffc0;

/// What MXCSR holds.
fn held() -> u32 {
    let mut word = 0;
    // SAFETY: `word` is written and nothing else.
    unsafe { asm!("stmxcsr [{}]", in(reg) &raw mut word, options(nostack, preserves_flags)) };
    word
}

/// Whether this thread rounds to nearest, flushes nothing to zero and has every trap masked.
pub fn mode_fit() -> bool {
    held() & BITS == FIT
}

extern "C" fn run(work: &mut &mut dyn FnMut()) {
    work();
}

/// Does the work in the mode that is fit. Rust takes it for granted that a block of assembly leaves MXCSR's mode as it was, so the work is
/// called from inside of one.
fn with_fit_mode(mut work: &mut dyn FnMut()) {
    let (fit, host) = (FIT, held());
    // SAFETY: `run` takes one pointer, to `work`, and does not unwind: work that does ends the process. A callee keeps r12.
    unsafe {
        asm!(
            "ldmxcsr [{fit}]",
            "call {run}",
            "ldmxcsr [r12]",
            fit = in(reg) &raw const fit,
            run = sym run,
            in("r12") &raw const host,
            in("rdi") &raw mut work,
            clobber_abi("C"),
        );
    }
}

/// The call in the mode that is fit. It takes the call by value, so that nothing of it needs to be in memory where the mode is fit already.
#[cold]
#[inline(never)]
fn in_fit_mode<T: Default>(call: impl FnOnce() -> T) -> T {
    let (mut call, mut answer) = (Some(call), T::default());
    with_fit_mode(&mut || {
        if let Some(call) = call.take() {
            answer = call();
        }
    });
    answer
}

/// The answer of a call in the mode that is fit; the host's mode stands again afterwards, flags included. Where the mode is fit already it
/// costs a read and a comparison.
pub(crate) fn guarded<T: Default>(call: impl FnOnce() -> T) -> T {
    if mode_fit() {
        call()
    } else {
        in_fit_mode(call)
    }
}
