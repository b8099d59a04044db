//! Random numbers from a seed (splitmix64); the same seed gives the same numbers everywhere.

/// A source of random numbers.
pub struct Random(u64);

impl Random {
    /// The source for one question of a run.
    pub fn for_question(seed: u64, index: u64) -> Random {
        let mut source = Random(seed ^ 0x5EC0_4D00_0000_0000);
        let run = source.next();
        Random(run ^ index.wrapping_mul(0xD6E8_FEB8_6659_FD93))
    }

    /// The next 64 random bits.
    pub fn next(&mut self) -> u64 {
        self.0 = self.0.wrapping_add(0x9E37_79B9_7F4A_7C15);
        let mut bits = self.0;
        bits = (bits ^ (bits >> 30)).wrapping_mul(0xBF58_476D_1CE4_E5B9);
        bits = (bits ^ (bits >> 27)).wrapping_mul(0x94D0_49BB_1331_11EB);
        bits ^ (bits >> 31)
    }

    /// A number below a limit that is not zero.
    pub fn below(&mut self, limit: usize) -> usize {
        (self.next() % limit as u64) as usize
    }

    /// A number from the first to the last, both included.
    pub fn between(&mut self, first: usize, last: usize) -> usize {
        first + self.below(last - first + 1)
    }

    /// A byte from the first to the last, both included.
    pub fn byte(&mut self, first: u8, last: u8) -> u8 {
        self.between(usize::from(first), usize::from(last)) as u8
    }

    /// A byte from the first to the last, which are themselves given often.
    pub fn edge(&mut self, first: u8, last: u8) -> u8 {
        match self.below(3) {
            0 => first,
            1 => last,
            _ => self.byte(first, last),
        }
    }

    /// True this many times in a hundred.
    pub fn chance(&mut self, percent: usize) -> bool {
        self.below(100) < percent
    }

    /// One of the items.
    pub fn pick<T: Clone>(&mut self, items: &[T]) -> T {
        items[self.below(items.len())].clone()
    }

    /// Random bytes.
    pub fn bytes(&mut self, count: usize) -> Vec<u8> {
        (0..count).map(|_| self.byte(0, 255)).collect()
    }
}
