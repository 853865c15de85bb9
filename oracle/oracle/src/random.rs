//! The random numbers of the list, the comparison and the benchmark: the same on every run.

use crate::Timestamp;

/// The generator splitmix64.
pub struct Random(u64);

impl Random {
    pub const fn new(seed: u64) -> Self {
        Random(seed)
    }

    /// Any number.
    pub fn any(&mut self) -> u64 {
        self.0 = self.0.wrapping_add(0x9E37_79B9_7F4A_7C15);
        let mixed = (self.0 ^ (self.0 >> 30)).wrapping_mul(0xBF58_476D_1CE4_E5B9);
        let mixed = (mixed ^ (mixed >> 27)).wrapping_mul(0x94D0_49BB_1331_11EB);
        mixed ^ (mixed >> 31)
    }

    /// A number below `limit`.
    pub fn below(&mut self, limit: u64) -> u64 {
        self.any() % limit
    }

    /// One of these.
    pub fn pick<T: Copy>(&mut self, from: &[T]) -> T {
        from[self.below(from.len() as u64) as usize]
    }

    /// A signed number of a random size, so that small ones are as frequent as large ones.
    pub fn signed(&mut self, bits: u64) -> i64 {
        let unused = 64 - bits + self.below(bits);
        (self.any() as i64) >> unused
    }

    /// An unsigned number of a random size.
    pub fn unsigned(&mut self) -> u64 {
        let unused = self.below(64);
        self.any() >> unused
    }

    /// Nanoseconds below 10^9, the ends more often than by chance.
    pub fn nanos(&mut self) -> u32 {
        let any = self.below(1_000_000_000) as u32;
        self.pick(&[0, 1, 999_999_999, any, any, any])
    }

    pub fn timestamp(&mut self) -> Timestamp {
        Timestamp {
            secs: self.signed(64),
            nanos: self.nanos(),
        }
    }
}
