//! A small generator of random numbers (splitmix64), so that a seed tells a whole run.

use std::cell::Cell;

/// The state is in a cell, so that one draw can stand among the inputs of another.
pub struct Random {
    state: Cell<u64>,
}

impl Random {
    pub fn new(seed: u64) -> Random {
        Random { state: Cell::new(seed) }
    }

    /// Any 64 bits.
    pub fn word(&self) -> u64 {
        let mut word = self.state.get().wrapping_add(0x9e37_79b9_7f4a_7c15);
        self.state.set(word);
        word = (word ^ (word >> 30)).wrapping_mul(0xbf58_476d_1ce4_e5b9);
        word = (word ^ (word >> 27)).wrapping_mul(0x94d0_49bb_1331_11eb);
        word ^ (word >> 31)
    }

    /// A number from `low` to `high`, both included.
    pub fn between(&self, low: u64, high: u64) -> u64 {
        let many = u128::from(high - low) + 1;
        low + ((u128::from(self.word()) * many) >> 64) as u64
    }

    pub fn place(&self, places: usize) -> usize {
        self.between(0, places as u64 - 1) as usize
    }

    /// True that many times in a hundred.
    pub fn chance(&self, percent: u64) -> bool {
        self.between(0, 99) < percent
    }

    pub fn pick<T: Copy>(&self, items: &[T]) -> T {
        items[self.place(items.len())]
    }

    /// Any 64 bits, of which few, many or about half are set.
    pub fn bits(&self) -> u64 {
        match self.between(0, 4) {
            0 => 0,
            1 => self.word() & self.word() & self.word(),
            2 => self.word(),
            3 => self.word() | self.word() | self.word(),
            _ => u64::MAX,
        }
    }

    /// A number that is likely to be at or near some limit of the document or of a number's bits.
    pub fn wild(&self) -> u64 {
        const LIMITS: [u64; 16] = [
            0,
            1,
            64,
            128,
            255,
            1_024,
            4_096,
            1_000_000,
            1 << 31,
            1 << 32,
            64_000_000,
            1_000_000_000_000 - 64,
            1_000_000_000_000,
            1 << 52,
            1 << 63,
            u64::MAX,
        ];
        let limit = self.pick(&LIMITS);
        match self.between(0, 3) {
            0 => limit,
            1 => limit.wrapping_add(self.between(0, 2)),
            2 => limit.wrapping_sub(self.between(0, 70)),
            _ => self.word() >> self.between(0, 63),
        }
    }

    /// The same in 32 bits.
    pub fn wild_32(&self) -> u32 {
        self.wild() as u32
    }
}
