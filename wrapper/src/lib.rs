//! Safe calls of the proved code in the archive that `tools/staticlib.sh capi` writes (x86-64 Linux). No dependencies.
//!
//! Lengths are in kilometres, angles in radians (docs/RULES.md says which number is which). Unfit input is refused under a number
//! (docs/RULES.md) and never panics. Surfaces and jobs are the bytes of the job file, which `tools/job.py` writes from readable text.
//!
//! The proofs speak of a thread that rounds to nearest, flushes nothing to zero and has every trap masked. Each call reads the thread's
//! mode (MXCSR) and, where it is another, sets it for the call and puts the host's back: the same bits come out whatever the host has set.
//! Any number of threads may call at once. docs/TRUST.md says what is proved and what is believed.

mod mode;

use mode::guarded;
pub use mode::mode_fit;

extern "C" {
    fn geomcore_sqrt(x: f64) -> f64;
    fn geomcore_sin(x: f64) -> f64;
    fn geomcore_cos(x: f64) -> f64;
    fn geomcore_atan2(y: f64, x: f64) -> f64;
    fn geomcore_point(
        surface: *const u8,
        bytes: usize,
        u: f64,
        v: f64,
        out: *mut f64,
        room: usize,
    ) -> u64;
    fn geomcore_trace(job: *const u8, bytes: usize, buffer: *mut f64, lent: usize) -> u64;
    fn geomcore_check(
        job: *const u8,
        bytes: usize,
        buffer: *const f64,
        lent: usize,
        count: u64,
        start: u64,
        code: u64,
    ) -> u64;
    fn geomcore_crossing(
        confusion: f64,
        angular: f64,
        buffer: *const f64,
        lent: usize,
        count: u64,
        corners: *const f64,
        given: usize,
    ) -> u64;
    fn geomcore_explain(
        confusion: f64,
        angular: f64,
        buffer: *const f64,
        lent: usize,
        count: u64,
        corners: *const f64,
        given: usize,
    ) -> u64;
    fn geomcore_write_v1(
        buffer: *const f64,
        lent: usize,
        count: u64,
        start: u64,
        code: u64,
        file: *mut u8,
        room: usize,
    ) -> u64;
    fn geomcore_read_v1(file: *const u8, bytes: usize, buffer: *mut f64, lent: usize) -> u64;
}

/// The bytes of one surface in a job file.
pub const SURFACE_BYTES: usize = 146;
/// The bytes of a job file.
pub const JOB_BYTES: usize = 347;
/// Where surface A and surface B begin in a job file.
pub const SURFACE_A: usize = 5;
pub const SURFACE_B: usize = 151;

/// Why a call was refused: the number, the index of the point that 13 to 16 name, the Newton round, from 0, in which a meeting that 9 or
/// 21 refuses gave up, and the column, from 0, at which the solve of 21 did (0 for the others).
///
/// 21: a solve gave up, in a round of 0 to 31. Where that round stood the two surfaces are as good as parallel, or one has no normal there
/// (a pole, an apex), or a radius near the limit of 2^20 makes them look so; round 0 stands at the guess, drawn into the windows. Another
/// pair of surfaces is needed; where they bend, a guess elsewhere may do.
///
/// Its column is a coordinate, 0, 1, 2 for x, y, z: the first that the directions of the two surfaces there, u and v of each, do not reach
/// by themselves. 0: none has a part along x; 1: their parts along y follow from those along x; 2: those along z follow from x and y. A
/// normal that both surfaces share has its last part, in this order, along that coordinate: two level planes, one above the other, give 2.
///
/// 9: every other failed meeting. 0 to 31: in that round no trial came nearer; 32: all rounds came nearer, none near enough. Another guess
/// is needed; none will do where the surfaces do not meet inside their windows.
#[derive(Clone, Copy, Debug, PartialEq, Eq)]
pub struct Refusal {
    pub number: u8,
    pub index: u32,
    pub round: u8,
    pub column: u8,
}

impl Refusal {
    /// The refusal of an answer's word, if its low byte has one.
    fn of(word: u64) -> Option<Refusal> {
        match word as u8 {
            0 => None,
            number => Some(Refusal {
                number,
                index: (word >> 32) as u32,
                round: (word >> 8) as u8,
                column: (word >> 16) as u8,
            }),
        }
    }
}

impl std::fmt::Display for Refusal {
    fn fmt(&self, f: &mut std::fmt::Formatter<'_>) -> std::fmt::Result {
        match self.number {
            9 => write!(f, "refused 9 in round {}", self.round),
            21 => write!(
                f,
                "refused 21 in round {} at column {}",
                self.round, self.column
            ),
            13..=16 => write!(f, "refused {} at point {}", self.number, self.index),
            _ => write!(f, "refused {}", self.number),
        }
    }
}

impl std::error::Error for Refusal {}

/// The square root, correctly rounded.
pub fn sqrt(x: f64) -> f64 {
    // SAFETY: numbers in, a number out.
    guarded(move || unsafe { geomcore_sqrt(x) })
}

/// fdlibm's sine of an angle in radians; a NaN of an infinite one and of a NaN.
pub fn sin(x: f64) -> f64 {
    // SAFETY: as above.
    guarded(move || unsafe { geomcore_sin(x) })
}

/// fdlibm's cosine of an angle in radians; a NaN of an infinite one and of a NaN.
pub fn cos(x: f64) -> f64 {
    // SAFETY: as above.
    guarded(move || unsafe { geomcore_cos(x) })
}

/// fdlibm's angle of the point (x, y), in radians.
pub fn atan2(y: f64, x: f64) -> f64 {
    // SAFETY: as above.
    guarded(move || unsafe { geomcore_atan2(y, x) })
}

/// The point at (u, v) of a surface given by its 146 bytes of the job file.
pub fn point(surface: &[u8], u: f64, v: f64) -> Result<[f64; 3], Refusal> {
    let mut out = [0.0; 3];
    // SAFETY: each pointer comes with the length of what it was taken from; the callee keeps neither and writes `out` alone.
    let word = guarded(|| unsafe {
        geomcore_point(
            surface.as_ptr(),
            surface.len(),
            u,
            v,
            out.as_mut_ptr(),
            out.len(),
        )
    });
    Refusal::of(word).map_or(Ok(out), Err)
}

/// How a line closes: open, closed forward or closed backward.
#[derive(Clone, Copy, Debug, PartialEq, Eq)]
pub enum Closing {
    Open,
    Forward,
    Backward,
}

/// A line in a lent buffer, seven numbers a point: how many points, which is the start, and how it closes.
#[derive(Clone, Copy, Debug, PartialEq, Eq)]
pub struct Line {
    pub count: usize,
    pub start: usize,
    pub closing: Closing,
}

impl Line {
    /// The line, or the refusal, of a trace's or a reader's word.
    fn of(word: u64) -> Result<Line, Refusal> {
        if let Some(refusal) = Refusal::of(word) {
            return Err(refusal);
        }
        let closing = match word >> 8 & 0xff {
            0 => Closing::Open,
            1 => Closing::Forward,
            _ => Closing::Backward,
        };
        let start = (word >> 16 & 0xffff) as usize;
        Ok(Line {
            count: (word >> 32) as usize,
            start,
            closing,
        })
    }
}

/// How many numbers the walk of a step cap asks for: seven for each of 2 cap + 1 points.
pub const fn room(cap: u16) -> usize {
    7 * (2 * cap as usize + 1)
}

/// Walks the line that a job file asks for over the lent numbers. Proved: a line that it gives passes `check` under the same job; 9 or 21
/// with its round and column is what the meeting of the job's guess gave.
pub fn trace(job: &[u8], buffer: &mut [f64]) -> Result<Line, Refusal> {
    // SAFETY: each pointer comes with the length of what it was taken from; the callee keeps neither and writes `buffer` alone.
    let word = guarded(|| unsafe {
        geomcore_trace(job.as_ptr(), job.len(), buffer.as_mut_ptr(), buffer.len())
    });
    Line::of(word)
}

/// Whether a line passes the check against the surfaces and tolerance of a job file; its guess and cap aren't read. Proved: it passes
/// exactly when document 01's conditions hold, and then at every point the exact squared gap is at most the confusion squared times
/// (1 + 2^-50).
pub fn check(job: &[u8], buffer: &[f64], line: Line) -> Result<(), Refusal> {
    // SAFETY: each pointer comes with the length of what it was taken from; the callee keeps neither and writes nothing.
    let word = guarded(|| unsafe {
        geomcore_check(
            job.as_ptr(),
            job.len(),
            buffer.as_ptr(),
            buffer.len(),
            line.count as u64,
            line.start as u64,
            line.closing as u64,
        )
    });
    Refusal::of(word).map_or(Ok(()), Err)
}

/// A C call on a trace and a box.
type OnBox = unsafe extern "C" fn(f64, f64, *const f64, usize, u64, *const f64, usize) -> u64;

/// The word of such a call: confusion and angular, the first `count` points, the box's low and high corner.
fn on_box(call: OnBox, tol: [f64; 2], buffer: &[f64], count: usize, sides: [[f64; 3]; 2]) -> u64 {
    let corners = sides.as_flattened();
    // SAFETY: each pointer comes with the length of what it was taken from; the callee keeps neither and writes nothing.
    guarded(|| unsafe {
        call(
            tol[0],
            tol[1],
            buffer.as_ptr(),
            buffer.len(),
            count as u64,
            corners.as_ptr(),
            corners.len(),
        )
    })
}

/// Whether the first `count` points of a trace cross a box.
pub fn crossing(
    confusion: f64,
    angular: f64,
    buffer: &[f64],
    count: usize,
    low: [f64; 3],
    high: [f64; 3],
) -> Result<bool, Refusal> {
    let tol = [confusion, angular];
    let word = on_box(geomcore_crossing, tol, buffer, count, [low, high]);
    Refusal::of(word).map_or(Ok(word & 0x100 != 0), Err)
}

/// Why a line crosses a box, or why not: the first of these that holds. Apart is always from the box grown by 8000 times the confusion; a
/// run holds 16 segments, the last one what is left.
#[derive(Clone, Copy, Debug, PartialEq, Eq)]
pub enum Reason {
    /// Some segment counts (the whole line's box and its run's are not apart, and it meets the grown box): the index, from 0, of the first.
    Segment(usize),
    /// The whole line's box is apart: the first axis, 0, 1, 2 for x, y, z, on which it is.
    WholeApart(usize),
    /// The boxes of all runs are apart.
    RunsApart,
    /// No segment of the runs whose box is not apart meets the grown box: how many segments these runs hold.
    NoneMet(usize),
}

impl Reason {
    /// The reason of an explaining word that refuses nothing.
    fn of(word: u64) -> Reason {
        let value = (word >> 32) as usize;
        match word >> 8 & 0xff {
            1 => Reason::Segment(value),
            2 => Reason::WholeApart(value),
            3 => Reason::RunsApart,
            _ => Reason::NoneMet(value),
        }
    }
}

impl std::fmt::Display for Reason {
    fn fmt(&self, f: &mut std::fmt::Formatter<'_>) -> std::fmt::Result {
        match self {
            Reason::Segment(i) => write!(f, "crosses at segment {i}"),
            Reason::WholeApart(axis) => {
                let name = ["x", "y", "z"].get(*axis).unwrap_or(&"no axis");
                write!(
                    f,
                    "the whole line lies apart from the grown box along {name}"
                )
            }
            Reason::RunsApart => {
                write!(f, "every run of 16 segments lies apart from the grown box")
            }
            Reason::NoneMet(n) => write!(
                f,
                "no segment of the runs not apart from the grown box meets it (segments in these runs: {n})"
            ),
        }
    }
}

/// Why the first `count` points of a trace cross a box, or why not. Proved: the reason is the one that the rule of `Reason` gives; it is a
/// segment exactly where `crossing` says yes, and what `crossing` refuses is refused by the same number.
pub fn explain(
    confusion: f64,
    angular: f64,
    buffer: &[f64],
    count: usize,
    low: [f64; 3],
    high: [f64; 3],
) -> Result<Reason, Refusal> {
    let tol = [confusion, angular];
    let word = on_box(geomcore_explain, tol, buffer, count, [low, high]);
    Refusal::of(word).map_or(Ok(Reason::of(word)), Err)
}

/// The two points of the segment that `explain` names, seven numbers each: that part of the buffer lent, no copy. It is empty where
/// `explain` names no segment or refuses.
pub fn stretch(
    confusion: f64,
    angular: f64,
    buffer: &[f64],
    count: usize,
    low: [f64; 3],
    high: [f64; 3],
) -> &[f64] {
    let numbers = match explain(confusion, angular, buffer, count, low, high) {
        Ok(Reason::Segment(i)) => 7 * i..7 * (i + 2),
        _ => 0..0,
    };
    buffer.get(numbers).unwrap_or_default()
}

/// How many bytes a trace file of version 1 has.
pub const fn file_v1_bytes(count: usize) -> usize {
    10 + 56 * count
}

/// How many numbers are room enough for any trace file of version 1: seven for each of 4001 points.
pub const FILE_V1_NUMBERS: usize = 7 * 4001;

/// Writes a line's points, seven numbers each, to the front of `file` as a trace file of version 1: how many bytes it has. A refusal
/// writes nothing: 20 for a line or a number that no file can hold, 8 for too few numbers or too few bytes. Proved: `read_v1` of those
/// bytes gives the line and its numbers back bit for bit; a line that passes `check` is refused at most by 8.
pub fn write_v1(buffer: &[f64], line: Line, file: &mut [u8]) -> Result<usize, Refusal> {
    // SAFETY: each pointer comes with the length of what it was taken from; the callee keeps neither and writes `file` alone.
    let word = guarded(|| unsafe {
        geomcore_write_v1(
            buffer.as_ptr(),
            buffer.len(),
            line.count as u64,
            line.start as u64,
            line.closing as u64,
            file.as_mut_ptr(),
            file.len(),
        )
    });
    Refusal::of(word).map_or(Ok((word >> 32) as usize), Err)
}

/// Reads a trace file of version 1, the whole of `file` and not a byte more, into the front of `buffer`. A refusal writes nothing: 20 for
/// bytes that are no such file, then 8 for too few numbers. It judges no geometry: `check` does. Proved: `write_v1` of what was read gives
/// the same bytes, and no other file reads as that line.
pub fn read_v1(file: &[u8], buffer: &mut [f64]) -> Result<Line, Refusal> {
    // SAFETY: each pointer comes with the length of what it was taken from; the callee keeps neither and writes `buffer` alone.
    let word = guarded(|| unsafe {
        geomcore_read_v1(file.as_ptr(), file.len(), buffer.as_mut_ptr(), buffer.len())
    });
    Line::of(word)
}
