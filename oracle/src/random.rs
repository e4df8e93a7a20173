//! A deterministic generator (splitmix64), so that a seed names its run.

pub struct Random {
    state: u64,
}

impl Random {
    pub fn new(seed: u64) -> Self {
        Random { state: seed }
    }

    /// 64 bits.
    pub fn bits(&mut self) -> u64 {
        self.state = self.state.wrapping_add(0x9e37_79b9_7f4a_7c15);
        let z = (self.state ^ (self.state >> 30)).wrapping_mul(0xbf58_476d_1ce4_e5b9);
        let z = (z ^ (z >> 27)).wrapping_mul(0x94d0_49bb_1331_11eb);
        z ^ (z >> 31)
    }

    /// A number below `n`.
    pub fn below(&mut self, n: usize) -> usize {
        (self.bits() % n as u64) as usize
    }

    pub fn one_in(&mut self, n: usize) -> bool {
        self.below(n) == 0
    }

    pub fn pick<T: Copy>(&mut self, from: &[T]) -> T {
        from[self.below(from.len())]
    }

    /// Uniform in -1 to 1.
    pub fn signed_unit(&mut self) -> f64 {
        (self.bits() >> 11) as f64 / (1u64 << 52) as f64 - 1.0
    }

    /// A sign, a uniform fraction and a binary exponent from `low` to `high`.
    pub fn scaled(&mut self, low: i32, high: i32) -> f64 {
        let e = low + self.below((high - low + 1) as usize) as i32;
        let m = 1.0 + (self.bits() >> 12) as f64 / (1u64 << 52) as f64;
        let half = 2f64.powi(e / 2);
        let x = m * half * 2f64.powi(e - e / 2);
        if self.one_in(2) { -x } else { x }
    }
}
