//! SplitMix64, a small generator of pseudo-random numbers: the lists must be
//! the same on every run and machine.

pub struct SplitMix64 {
    state: u64,
}

impl SplitMix64 {
    pub fn new(seed: u64) -> Self {
        Self { state: seed }
    }

    pub fn next_u64(&mut self) -> u64 {
        self.state = self.state.wrapping_add(0x9e37_79b9_7f4a_7c15);
        let mut z = self.state;
        z = (z ^ (z >> 30)).wrapping_mul(0xbf58_476d_1ce4_e5b9);
        z = (z ^ (z >> 27)).wrapping_mul(0x94d0_49bb_1331_11eb);
        z ^ (z >> 31)
    }

    /// Any of the 2^32 bit patterns.
    pub fn next_u32(&mut self) -> u32 {
        (self.next_u64() >> 32) as u32
    }

    /// A value from `low` up to `high`, evenly spread.
    pub fn between(&mut self, low: f32, high: f32) -> f32 {
        let share = (self.next_u64() >> 40) as f32 / 16_777_216.0;
        low + share * (high - low)
    }
}
