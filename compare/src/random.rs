//! Random inputs from fixed seeds (splitmix64), so that each run is the same.

pub struct Random {
    state: u64,
}

impl Random {
    pub fn new(seed: u64) -> Random {
        Random { state: seed }
    }

    pub fn next(&mut self) -> u64 {
        self.state = self.state.wrapping_add(0x9E37_79B9_7F4A_7C15);
        let mut z = self.state;
        z = (z ^ (z >> 30)).wrapping_mul(0xBF58_476D_1CE4_E5B9);
        z = (z ^ (z >> 27)).wrapping_mul(0x94D0_49BB_1331_11EB);
        z ^ (z >> 31)
    }

    /// A number from 0 to n - 1. The slight bias of the remainder does not matter here.
    pub fn below(&mut self, n: u64) -> u64 {
        self.next() % n
    }

    /// A number from low to high, both included.
    pub fn between(&mut self, low: u64, high: u64) -> u64 {
        low + self.below(high - low + 1)
    }

    /// True once in n.
    pub fn once_in(&mut self, n: u64) -> bool {
        self.below(n) == 0
    }

    pub fn word(&mut self) -> u32 {
        (self.next() >> 32) as u32
    }

    pub fn pick<T: Copy>(&mut self, from: &[T]) -> T {
        from[self.below(from.len() as u64) as usize]
    }

    /// A number of any length in bits: short ones are as likely as long ones.
    pub fn any_length(&mut self) -> u64 {
        match self.below(65) {
            0 => 0,
            bits => self.next() >> (64 - bits),
        }
    }

    pub fn bytes(&mut self, len: usize) -> Vec<u8> {
        (0..len).map(|_| self.next() as u8).collect()
    }

    pub fn words(&mut self, len: usize) -> Vec<u32> {
        (0..len).map(|_| self.word()).collect()
    }

    pub fn numbers(&mut self, len: usize) -> Vec<u64> {
        (0..len).map(|_| self.next()).collect()
    }

    pub fn signed(&mut self, len: usize) -> Vec<i64> {
        (0..len).map(|_| self.next() as i64).collect()
    }

    /// Counters that fit the width; the lowest and the highest come often.
    pub fn counters(&mut self, len: usize, w: u32) -> Vec<i64> {
        let highest = (1u64 << w) - 1;
        (0..len)
            .map(|_| match self.below(8) {
                0 => 0,
                1 => highest as i64,
                _ => (self.next() & highest) as i64,
            })
            .collect()
    }

    /// A position that no buffer reaches, where sums of positions overflow.
    pub fn huge(&mut self) -> usize {
        self.pick(&[
            usize::MAX,
            usize::MAX - 1,
            usize::MAX - 3,
            usize::MAX - 7,
            usize::MAX / 2,
            usize::MAX / 2 + 1,
            usize::MAX / 8 + 1,
            usize::MAX / 32 + 1,
            1 << 32,
        ])
    }
}
