//! The job file, a plain rule written from document 01 alone: "a 4-byte length (343), a version byte 1, surface A, surface B, confusion,
//! angular, four guess numbers, a 2-byte cap", big-endian.

use crate::Tolerance;
use crate::patch::unfit;
use crate::surfaces::Patch;

pub(crate) const BYTES: usize = 347;
const SURFACE: usize = 146;

/// "A surface is a kind byte, a mark byte, 12 frame numbers, two sizes, window low and high of u, then of v."
#[derive(Clone, Copy, Debug)]
pub(crate) struct Side {
    pub(crate) kind: u8,
    pub(crate) marks: u8,
    pub(crate) numbers: [f64; 18],
}

#[derive(Clone, Copy, Debug)]
pub(crate) struct Job {
    pub(crate) a: Side,
    pub(crate) b: Side,
    pub(crate) confusion: f64,
    pub(crate) angular: f64,
    pub(crate) guess: [f64; 4],
    pub(crate) cap: u16,
}

fn number(bytes: &[u8]) -> f64 {
    f64::from_bits(u64::from_be_bytes(bytes[..8].try_into().expect("8 bytes")))
}

impl Side {
    /// How many sizes the kind has.
    pub(crate) fn sizes(kind: u8) -> usize {
        [0, 1, 2, 1, 2][usize::from(kind)]
    }

    /// None where "kind above 4, mark above 3, an unused size with any bit set".
    fn read(bytes: &[u8]) -> Option<Side> {
        let (kind, marks) = (bytes[0], bytes[1]);
        if kind > 4 || marks > 3 {
            return None;
        }
        let numbers: [f64; 18] = std::array::from_fn(|i| number(&bytes[2 + 8 * i..]));
        let unused = &numbers[12 + Side::sizes(kind)..14];
        let set = unused.iter().any(|x| x.to_bits() != 0);
        (!set).then_some(Side {
            kind,
            marks,
            numbers,
        })
    }

    pub(crate) fn write(&self, out: &mut Vec<u8>) {
        out.extend([self.kind, self.marks]);
        out.extend(self.numbers.iter().flat_map(|x| x.to_bits().to_be_bytes()));
    }

    /// The number of a surface's refusal, 1 to 4, or 0.
    pub(crate) fn unfit(&self) -> u64 {
        unfit(usize::from(self.kind), u64::from(self.marks), &self.numbers)
    }

    pub(crate) fn patch(&self) -> Patch {
        Patch::from_numbers(usize::from(self.kind), u64::from(self.marks), &self.numbers)
    }
}

impl Job {
    /// None where 19 refuses: "not 347 bytes, length field not 343, version not 1", or a surface that cannot be read.
    pub(crate) fn read(bytes: &[u8]) -> Option<Job> {
        if bytes.len() != BYTES || bytes[..4] != [0, 0, 1, 87] || bytes[4] != 1 {
            return None;
        }
        let rest = &bytes[5 + 2 * SURFACE..];
        Some(Job {
            a: Side::read(&bytes[5..5 + SURFACE])?,
            b: Side::read(&bytes[5 + SURFACE..5 + 2 * SURFACE])?,
            confusion: number(rest),
            angular: number(&rest[8..]),
            guess: std::array::from_fn(|k| number(&rest[16 + 8 * k..])),
            cap: u16::from_be_bytes([rest[48], rest[49]]),
        })
    }

    pub(crate) fn write(&self) -> Vec<u8> {
        let mut out = vec![0, 0, 1, 87, 1];
        self.a.write(&mut out);
        self.b.write(&mut out);
        for x in [self.confusion, self.angular].iter().chain(&self.guess) {
            out.extend(x.to_bits().to_be_bytes());
        }
        out.extend(self.cap.to_be_bytes());
        out
    }

    pub(crate) fn tolerance(&self) -> Tolerance {
        Tolerance {
            confusion: self.confusion,
            angular: self.angular,
            parametric: 0.0,
        }
    }

    /// The first refusal of "1 to 4 for A, the same for B, then 5", or 0: "confusion not within 2^-40 to 1, or angular not within 0 to 1".
    pub(crate) fn unfit(&self) -> u64 {
        let surfaces = [self.a.unfit(), self.b.unfit()];
        if let Some(number) = surfaces.into_iter().find(|n| *n != 0) {
            return number;
        }
        let fit =
            (2f64.powi(-40)..=1.0).contains(&self.confusion) && (0.0..=1.0).contains(&self.angular);
        if fit { 0 } else { 5 }
    }
}
