//! Pseudo-random choices from a fixed seed (xorshift64*), so that every run gives the same.

pub struct Random(u64);

impl Random {
    /// Each vector file has a seed of its own: a change to one leaves the others as they are.
    pub fn new(seed: u64) -> Random {
        Random(seed.wrapping_mul(0x9e37_79b9_7f4a_7c15) | 1)
    }

    fn next(&mut self) -> u64 {
        self.0 ^= self.0 >> 12;
        self.0 ^= self.0 << 25;
        self.0 ^= self.0 >> 27;
        self.0.wrapping_mul(0x2545_f491_4f6c_dd1d)
    }

    /// From 0 to `end - 1`.
    pub fn below(&mut self, end: usize) -> usize {
        ((self.next() >> 33) % end as u64) as usize
    }

    /// True once in `times`.
    pub fn once_in(&mut self, times: usize) -> bool {
        self.below(times) == 0
    }

    pub fn pick<'a, T>(&mut self, from: &'a [T]) -> &'a T {
        &from[self.below(from.len())]
    }

    /// A text of `count` words of a list.
    pub fn words(&mut self, from: &[&str], count: usize) -> String {
        (0..count).map(|_| *self.pick(from)).collect()
    }
}
