//! A small generator of random numbers (splitmix64), the same everywhere.

pub struct Random(u64);

impl Random {
    pub fn new(seed: u64) -> Self {
        Random(seed)
    }

    pub fn number(&mut self) -> u64 {
        self.0 = self.0.wrapping_add(0x9e37_79b9_7f4a_7c15);
        let mixed = (self.0 ^ (self.0 >> 30)).wrapping_mul(0xbf58_476d_1ce4_e5b9);
        let mixed = (mixed ^ (mixed >> 27)).wrapping_mul(0x94d0_49bb_1331_11eb);
        mixed ^ (mixed >> 31)
    }

    pub fn below(&mut self, limit: usize) -> usize {
        (self.number() % limit as u64) as usize
    }

    /// Both ends included.
    pub fn between(&mut self, low: usize, high: usize) -> usize {
        low + self.below(high - low + 1)
    }

    pub fn address(&mut self, low: u32, high: u32) -> u32 {
        low + (self.number() % (u64::from(high - low) + 1)) as u32
    }

    /// Few often meet again; both ends of the range come up.
    pub fn owner(&mut self) -> u16 {
        match self.below(8) {
            0 => 0,
            1 => u16::MAX,
            2 => self.number() as u16,
            _ => self.below(4) as u16,
        }
    }

    /// Any but this one.
    pub fn other_owner(&mut self, owner: u16) -> u16 {
        let other = self.owner();
        if other == owner {
            owner ^ 1
        } else {
            other
        }
    }

    pub fn one_in(&mut self, times: usize) -> bool {
        self.below(times) == 0
    }

    pub fn pick<T: Copy>(&mut self, from: &[T]) -> T {
        from[self.below(from.len())]
    }

    pub fn shuffle<T>(&mut self, items: &mut [T]) {
        for last in (1..items.len()).rev() {
            items.swap(last, self.below(last + 1));
        }
    }
}
