//! The proved code, through the crate `probe`. A Rattle slice passes to C as a pointer and a length.

unsafe extern "C" {
    fn probe_solve(
        size: u64,
        input: *const f64,
        inputs: usize,
        output: *mut f64,
        outputs: usize,
    ) -> u64;
    fn probe_surface(
        what: u64,
        kind: u64,
        numbers: *const f64,
        count: usize,
        u: f64,
        v: f64,
        output: *mut f64,
        outputs: usize,
    ) -> u64;
    fn probe_step(
        what: u64,
        pin: u64,
        input: *const f64,
        inputs: usize,
        output: *mut f64,
        outputs: usize,
    ) -> u64;
}

/// The answer word for a system of `n` unknowns: the matrix row by row, the right side, tol.
pub(crate) fn solve(n: usize, input: &[f64], output: &mut [f64]) -> u64 {
    let (s, inputs) = (input.as_ptr(), input.len());
    let (t, outputs) = (output.as_mut_ptr(), output.len());
    // SAFETY: each pointer comes with the length of the slice it was taken from, and the callee keeps neither.
    unsafe { probe_solve(n as u64, s, inputs, t, outputs) }
}

/// The answer word of `what`: 0 the point, 1 both first derivatives.
fn surface(what: u64, kind: u64, numbers: &[f64], [u, v]: [f64; 2], output: &mut [f64]) -> u64 {
    let (s, count) = (numbers.as_ptr(), numbers.len());
    let (t, outputs) = (output.as_mut_ptr(), output.len());
    // SAFETY: as in `solve`.
    unsafe { probe_surface(what, kind, s, count, u, v, t, outputs) }
}

/// 1 and the point, or 0.
pub(crate) fn point(kind: u64, numbers: &[f64], u: f64, v: f64, output: &mut [f64]) -> u64 {
    surface(0, kind, numbers, [u, v], output)
}

/// 1 and both first derivatives, or 0.
pub(crate) fn derivatives(kind: u64, numbers: &[f64], u: f64, v: f64, output: &mut [f64]) -> u64 {
    surface(1, kind, numbers, [u, v], output)
}

crate::capi::of_a_crossing! {
    /// How many numbers the stretch of a crossing's first segment has; they stand at the front of the output then.
    stretch: probe_stretch, output of 14;
}

/// A step of the walk.
#[derive(Clone, Copy, PartialEq, Debug)]
pub(crate) enum Step {
    Tangent,
    Predict,
    Leaving,
    Meet,
    MeetInPlane,
    Land(u64),
}

impl Step {
    /// Its number, and the parameter pinned; 0 where none is.
    pub(crate) fn number(self) -> (u64, u64) {
        match self {
            Step::Tangent => (0, 0),
            Step::Predict => (1, 0),
            Step::Leaving => (2, 0),
            Step::Meet => (3, 0),
            Step::MeetInPlane => (4, 0),
            Step::Land(pin) => (5, pin),
        }
    }
}

/// The answer word of a step.
pub(crate) fn step(step: Step, input: &[f64], output: &mut [f64]) -> u64 {
    let (what, pin) = step.number();
    let (s, inputs) = (input.as_ptr(), input.len());
    let (t, outputs) = (output.as_mut_ptr(), output.len());
    // SAFETY: as in `solve`.
    unsafe { probe_step(what, pin, s, inputs, t, outputs) }
}
