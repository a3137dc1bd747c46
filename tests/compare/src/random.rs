//! A small generator (xorshift): the same seed gives the same numbers.

pub struct Random(u64);

impl Random {
    /// Any seed; it is mixed, so that neighbouring ones have nothing in common.
    pub fn new(seed: u64) -> Random {
        let mixed = (seed ^ 0x9e37_79b9_7f4a_7c15).wrapping_mul(0xbf58_476d_1ce4_e5b9);
        Random((mixed ^ mixed >> 31) | 1)
    }

    pub fn below(&mut self, n: u64) -> u64 {
        self.0 ^= self.0 << 13;
        self.0 ^= self.0 >> 7;
        self.0 ^= self.0 << 17;
        // The low bits are the weaker ones.
        (self.0 >> 16) % n
    }

    pub fn between(&mut self, least: u64, most: u64) -> u64 {
        least + self.below(most - least + 1)
    }

    /// From 0 to 1.
    pub fn share(&mut self) -> f64 {
        self.between(0, 1 << 20) as f64 / (1 << 20) as f64
    }

    pub fn place(&mut self, length: usize) -> usize {
        self.below(length as u64) as usize
    }

    pub fn one_of<T: Copy>(&mut self, values: &[T]) -> T {
        values[self.place(values.len())]
    }

    pub fn bytes(&mut self, most: u64) -> Vec<u8> {
        (0..=self.below(most)).map(|_| self.below(256) as u8).collect()
    }

    /// Of any number of bits, so that small ones are as frequent as large ones.
    pub fn luminance(&mut self) -> u64 {
        let bits = self.below(33);
        self.below(1 << bits)
    }

    /// Of the items of a section, permitted or not.
    pub fn count(&mut self) -> u16 {
        match self.below(3) {
            0 => self.one_of(&[0, 1, 2, 4, 5, 6, 8, 9, 17, 18, 19, 1_023, 1_024, 1_025]),
            1 => self.below(20) as u16,
            _ => self.below(65_536) as u16,
        }
    }
}
