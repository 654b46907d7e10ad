//! SplitMix64, and choices made with it.

pub struct Random(u64);

impl Random {
    pub fn new(seed: u64) -> Random {
        Random(seed)
    }

    fn next(&mut self) -> u64 {
        self.0 = self.0.wrapping_add(0x9E37_79B9_7F4A_7C15);
        let mixed = (self.0 ^ (self.0 >> 30)).wrapping_mul(0xBF58_476D_1CE4_E5B9);
        let mixed = (mixed ^ (mixed >> 27)).wrapping_mul(0x94D0_49BB_1331_11EB);
        mixed ^ (mixed >> 31)
    }

    pub fn below(&mut self, limit: usize) -> usize {
        (self.next() % limit as u64) as usize
    }

    pub fn between(&mut self, least: usize, most: usize) -> usize {
        least + self.below(most - least + 1)
    }

    pub fn one_in(&mut self, count: usize) -> bool {
        self.below(count) == 0
    }

    pub fn percent(&mut self, share: usize) -> bool {
        self.below(100) < share
    }

    pub fn pick<T: Copy>(&mut self, items: &[T]) -> T {
        items[self.below(items.len())]
    }

    pub fn byte(&mut self) -> u8 {
        self.next() as u8
    }

    pub fn any_word(&mut self) -> u32 {
        self.next() as u32
    }

    /// Small words and the edges of words more often than others.
    pub fn word(&mut self) -> u32 {
        match self.below(10) {
            0..=4 => self.below(8) as u32,
            5 => self.below(40) as u32,
            6 => 0x8000_0000_u32.wrapping_add(self.below(3) as u32).wrapping_sub(1),
            7 => u32::MAX - self.below(3) as u32,
            8 => 1 << self.below(32),
            _ => self.any_word(),
        }
    }
}
