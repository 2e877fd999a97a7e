//! Random numbers from a seed, the same on every machine.

pub struct Random(u64);

impl Random {
    pub fn new(seed: u64) -> Random {
        // Zero would stay zero for ever.
        Random(seed.wrapping_mul(0x9e37_79b9_7f4a_7c15) | 1)
    }

    pub fn next(&mut self) -> u64 {
        self.0 ^= self.0 << 13;
        self.0 ^= self.0 >> 7;
        self.0 ^= self.0 << 17;
        self.0.wrapping_mul(0x2545_f491_4f6c_dd1d)
    }

    /// A number below n, which is not 0.
    pub fn below(&mut self, n: u64) -> u64 {
        (self.next() >> 11) % n
    }

    /// A number from the first to the last.
    pub fn between(&mut self, first: usize, last: usize) -> usize {
        first + self.below((last - first + 1) as u64) as usize
    }

    pub fn one_in(&mut self, n: u64) -> bool {
        self.below(n) == 0
    }

    pub fn numbers(&mut self, n: usize) -> Vec<u64> {
        (0..n).map(|_| self.next()).collect()
    }

    /// A capacity: mostly small, now and then large.
    pub fn capacity(&mut self) -> usize {
        match self.below(100) {
            0 => self.between(65, 4096),
            1..=9 => self.between(13, 66),
            _ => self.between(1, 12),
        }
    }

    /// Requests over so many pages, which stand anywhere below 2^32. Some days have favourites.
    pub fn trace(&mut self, len: usize, pages: usize) -> Vec<u64> {
        let first = self.below(1 << 32);
        let stride = self.below(1 << 32) | 1;
        let skewed = self.one_in(2);
        let drawn = |r: &mut Random| {
            let i = r.below(pages as u64);
            let i = if skewed { i * r.below(pages as u64) / pages as u64 } else { i };
            (first + i.wrapping_mul(stride)) % (1 << 32)
        };
        (0..len).map(|_| drawn(self)).collect()
    }
}
