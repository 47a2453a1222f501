//! A small generator of numbers that look random and are the same on every run.

/// Xorshift generator (64 bits, shifts 12, 25, 27).
pub struct Xorshift {
    word: u64,
}

impl Xorshift {
    /// A generator for a stream (say, the kind of record) and a seed.
    pub fn new(stream: u64, seed: u64) -> Xorshift {
        let mixed = mix(mix(seed).wrapping_add(stream));
        Xorshift { word: mixed | 1 }
    }

    fn next(&mut self) -> u64 {
        self.word ^= self.word >> 12;
        self.word ^= self.word << 25;
        self.word ^= self.word >> 27;
        self.word.wrapping_mul(0x2545_F491_4F6C_DD1D)
    }

    /// A number below `bound`, which is at least 1.
    pub fn below(&mut self, bound: u32) -> u32 {
        (((self.next() >> 32) * u64::from(bound)) >> 32) as u32
    }

    /// A number from `low` to `high`, both included.
    pub fn between(&mut self, low: u32, high: u32) -> u32 {
        low + self.below(high - low + 1)
    }

    /// The same for a byte.
    pub fn byte_between(&mut self, low: u8, high: u8) -> u8 {
        self.between(u32::from(low), u32::from(high)) as u8
    }

    /// Any byte.
    pub fn byte(&mut self) -> u8 {
        self.byte_between(0, 255)
    }

    /// Any 32-bit number.
    pub fn word(&mut self) -> u32 {
        (self.next() >> 32) as u32
    }

    /// True in `part` of `whole` cases.
    pub fn chance(&mut self, part: u32, whole: u32) -> bool {
        self.below(whole) < part
    }

    /// One of the items; there is at least one.
    pub fn pick<T: Copy>(&mut self, items: &[T]) -> T {
        items[self.below(items.len() as u32) as usize]
    }

    /// Puts the items in any order.
    pub fn shuffle<T>(&mut self, items: &mut [T]) {
        for last in (1..items.len()).rev() {
            items.swap(last, self.below(last as u32 + 1) as usize);
        }
    }
}

/// Spreads a seed over all bits.
fn mix(seed: u64) -> u64 {
    let mut word = seed.wrapping_add(0x9E37_79B9_7F4A_7C15);
    word = (word ^ word >> 30).wrapping_mul(0xBF58_476D_1CE4_E5B9);
    word = (word ^ word >> 27).wrapping_mul(0x94D0_49BB_1331_11EB);
    word ^ word >> 31
}
