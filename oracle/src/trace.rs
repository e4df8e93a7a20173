//! The public trace: the Rust's `meet` without plane and `trace` from the meeting, and around them the refusals and the buffer's rules, a
//! plain rule written from document 01 alone.

use crate::intersect::marching::{Chords, Line, Mark, Untraced, Windows, meet, trace};
use crate::job::Job;

/// "Seven numbers a point: x, y, z, then u, v on A and u, v on B."
pub(crate) const WIDTH: usize = 7;

/// "Fewer than 7(2n+1) numbers lent."
pub(crate) fn need(cap: u16) -> usize {
    WIDTH * (2 * usize::from(cap) + 1)
}

/// The refusals before 9, "1 to 4 for A, the same for B, then 5 to 11", or 0.
fn refusal(job: &Job, lent: usize) -> u64 {
    let number = job.unfit();
    if number != 0 {
        return number;
    }
    if job.guess.iter().any(|x| !x.is_finite()) {
        return 6;
    }
    if !(2..=2000).contains(&job.cap) {
        return 7;
    }
    if lent < need(job.cap) {
        return 8;
    }
    0
}

/// The line, or the word of 9 or 21 with its round and column, of 10 or 11.
fn walk(job: &Job, chords: Chords) -> Result<Line, u64> {
    let (a, b, tol) = (job.a.patch(), job.b.patch(), job.tolerance());
    let mut mark = Mark::default();
    let met = meet(&a, &b, job.guess, None, tol, Windows::Asked, &mut mark);
    let seed = met.ok_or_else(|| mark.word())?;
    trace(&a, &b, seed, tol, usize::from(job.cap), chords).map_err(|why| match why {
        Untraced::NoDirection => 10,
        Untraced::TooShort => 11,
    })
}

/// The answer's word of a line: 2^8 code + 2^16 start + 2^32 count.
pub(crate) fn word(count: usize, start: usize, code: u64) -> u64 {
    (code << 8) + ((start as u64) << 16) + ((count as u64) << 32)
}

/// Count, start and code of an answer's word; none of a refusal.
pub(crate) fn unpacked(word: u64) -> Option<(u64, u64, u64)> {
    (word & 0xff == 0).then_some((word >> 32, word >> 16 & 0xffff, word >> 8 & 0xff))
}

/// The word with 9 for 9 and 21, no round and no column: "against the Rust both count as its one \"no meeting\"".
pub(crate) fn as_the_rust(word: u64) -> u64 {
    match word & 0xff {
        9 | 21 => 9,
        _ => word,
    }
}

/// The answer's word, and the buffer as it is afterwards.
pub(crate) fn answer(bytes: &[u8], buffer: &mut [f64], chords: Chords) -> u64 {
    let Some(job) = Job::read(bytes) else {
        return 19;
    };
    let number = refusal(&job, buffer.len());
    if number != 0 {
        return number;
    }
    let line = walk(&job, chords);
    buffer[..need(job.cap)].fill(0.0);
    let line = match line {
        Ok(line) => line,
        Err(word) => return word,
    };
    for (row, (x, p)) in buffer.chunks_mut(WIDTH).zip(&line.points) {
        row[..3].copy_from_slice(&[p.x, p.y, p.z]);
        row[3..].copy_from_slice(x);
    }
    word(line.points.len(), line.start, line.closing)
}
