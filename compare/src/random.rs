//! A small random generator with a fixed seed, so that every run compares the same inputs.

pub struct Random(u64);

impl Random {
    pub fn new(seed: u64) -> Self {
        Random(seed)
    }

    /// splitmix64
    pub fn next(&mut self) -> u64 {
        self.0 = self.0.wrapping_add(0x9e37_79b9_7f4a_7c15);
        let mut z = self.0;
        z = (z ^ (z >> 30)).wrapping_mul(0xbf58_476d_1ce4_e5b9);
        z = (z ^ (z >> 27)).wrapping_mul(0x94d0_49bb_1331_11eb);
        z ^ (z >> 31)
    }

    /// A number below n.
    pub fn below(&mut self, n: u64) -> u64 {
        self.next() % n
    }

    pub fn one_in(&mut self, n: u64) -> bool {
        self.below(n) == 0
    }

    pub fn byte(&mut self) -> u8 {
        self.next() as u8
    }

    /// A 32-bit number that is often small or near an edge.
    pub fn edgy(&mut self) -> u32 {
        match self.below(8) {
            0 => self.below(4) as u32,
            1 => (1u32 << self.below(32)).wrapping_add(self.below(3) as u32).wrapping_sub(1),
            2 => u32::MAX - self.below(3) as u32,
            3 => self.below(65_538) as u32,
            4 => self.below(17) as u32,
            _ => self.next() as u32,
        }
    }

    /// A width, mostly good.
    pub fn width(&mut self) -> u32 {
        if self.one_in(20) { self.edgy() } else { 1 + self.below(16) as u32 }
    }

    /// An end for a width, mostly one that fits, often near the edges of the width.
    pub fn end(&mut self, n: u32) -> u32 {
        let top = 1u64 << n.min(17);
        match self.below(16) {
            0 => self.edgy(),
            1 => top as u32,
            2 => (top - 1) as u32,
            3 => self.below(3) as u32,
            4 => (top - 1).saturating_sub(self.below(3)) as u32,
            _ => self.below(top) as u32,
        }
    }

    /// The two ends of an interval, mostly in order.
    pub fn ends(&mut self, n: u32) -> (u32, u32) {
        let (a, b) = (self.end(n), self.end(n));
        if self.one_in(16) { (a, b) } else { (a.min(b), a.max(b)) }
    }
}
