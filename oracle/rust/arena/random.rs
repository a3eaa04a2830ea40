//! A sample that a seed fixes (splitmix64).

pub struct Random(u64);

impl Random {
    pub fn new(seed: u64) -> Random {
        Random(seed)
    }

    pub fn bits(&mut self) -> u64 {
        self.0 = self.0.wrapping_add(0x9E37_79B9_7F4A_7C15);
        let mut x = self.0;
        x = (x ^ (x >> 30)).wrapping_mul(0xBF58_476D_1CE4_E5B9);
        x = (x ^ (x >> 27)).wrapping_mul(0x94D0_49BB_1331_11EB);
        x ^ (x >> 31)
    }

    /// Below `end`, which is not 0.
    pub fn below(&mut self, end: usize) -> usize {
        (self.bits() as u128 * end as u128 >> 64) as usize
    }

    /// One of the values.
    pub fn of<T: Copy>(&mut self, values: &[T]) -> T {
        values[self.below(values.len())]
    }

    /// A byte, where bytes that go on, paddings and the ends of seven and eight bits come often. One step of the sample
    /// gives the byte and the choice.
    pub fn byte(&mut self) -> u8 {
        let bits = self.bits();
        let byte = bits as u8;
        match bits >> 8 & 7 {
            0 | 1 => byte | 0x80,
            2 => 0x80,
            3 => [0x00, 0x01, 0x7F, 0x81, 0xFF][(bits >> 16) as usize % 5],
            _ => byte,
        }
    }

    /// A 32-bit number, each width as often as another.
    pub fn wide(&mut self) -> u32 {
        self.bits() as u32 >> self.below(32)
    }

    /// A running status that is valid: none in one of eight.
    pub fn running(&mut self) -> u8 {
        if self.below(8) == 0 { 0 } else { 0x80 + self.below(0x70) as u8 }
    }
}
