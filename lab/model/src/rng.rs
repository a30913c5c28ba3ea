//! A small generator of pseudo-random numbers (splitmix64), so that a run can be repeated from its seed.

pub struct Rng(u64);

impl Rng {
    pub fn new(seed: u64) -> Rng {
        Rng(seed)
    }

    pub fn word(&mut self) -> u64 {
        self.0 = self.0.wrapping_add(0x9E37_79B9_7F4A_7C15);
        let z = (self.0 ^ (self.0 >> 30)).wrapping_mul(0xBF58_476D_1CE4_E5B9);
        let z = (z ^ (z >> 27)).wrapping_mul(0x94D0_49BB_1331_11EB);
        z ^ (z >> 31)
    }

    /// A number below `bound`; 0 where the bound is 0.
    pub fn below(&mut self, bound: u64) -> u64 {
        if bound == 0 {
            return 0;
        }
        ((u128::from(self.word()) * u128::from(bound)) >> 64) as u64
    }

    /// A number from `low` to `high`, both included.
    pub fn between(&mut self, low: u64, high: u64) -> u64 {
        low + self.below(high - low + 1)
    }

    /// True once in `of` times.
    pub fn once_in(&mut self, of: u64) -> bool {
        self.below(of) == 0
    }

    pub fn pick<T: Copy>(&mut self, from: &[T]) -> T {
        from[self.below(from.len() as u64) as usize]
    }

    pub fn bytes(&mut self, length: usize) -> Vec<u8> {
        let mut out = Vec::with_capacity(length + 8);
        while out.len() < length {
            out.extend_from_slice(&self.word().to_le_bytes());
        }
        out.truncate(length);
        out
    }

    /// A number from `low` to `high`: often an edge, otherwise small ones far more often than large ones.
    pub fn skewed(&mut self, low: u64, high: u64) -> u64 {
        match self.below(24) {
            0 | 1 => low,
            2 => high,
            3 => (low + 1).min(high),
            4 => (high - 1).max(low),
            _ => {
                let width = high - low + 1;
                let bits = self.below(u64::from(u64::BITS - width.leading_zeros()) + 1);
                low + self.below((1u64 << bits).min(width))
            }
        }
    }
}
