//! splitmix64: the same numbers from the same seed, everywhere.

use std::cell::Cell;

pub struct Prng(Cell<u64>);

impl Prng {
    /// A stream of its own for each purpose and number under one seed.
    pub fn new(seed: u64, purpose: u64, number: u64) -> Self {
        let prng = Self(Cell::new(seed));
        for value in [purpose, number] {
            prng.0.set(prng.next() ^ value);
        }
        prng
    }

    pub fn next(&self) -> u64 {
        self.0.update(|state| state.wrapping_add(0x9e37_79b9_7f4a_7c15));
        let mut z = self.0.get();
        z = (z ^ (z >> 30)).wrapping_mul(0xbf58_476d_1ce4_e5b9);
        z = (z ^ (z >> 27)).wrapping_mul(0x94d0_49bb_1331_11eb);
        z ^ (z >> 31)
    }

    pub fn below(&self, n: usize) -> usize {
        (self.next() % n as u64) as usize
    }

    pub fn one_in(&self, n: usize) -> bool {
        self.below(n) == 0
    }

    pub fn pick<T: Copy>(&self, from: &[T]) -> T {
        from[self.below(from.len())]
    }

    pub fn u32(&self) -> u32 {
        self.next() as u32
    }

    pub fn i32(&self) -> i32 {
        self.u32().cast_signed()
    }

    /// Any bytes, more often than chance has it zeros and the last bytes of infinities and NaNs.
    pub fn bytes(&self, n: usize) -> Vec<u8> {
        let byte = |_| match self.below(12) {
            0..4 => 0,
            4 => 127,
            5 => 255,
            _ => self.next() as u8,
        };
        (0..n).map(byte).collect()
    }

    pub fn shuffle<T>(&self, list: &mut [T]) {
        for last in (1..list.len()).rev() {
            list.swap(last, self.below(last + 1));
        }
    }
}
