//! Numbers for random plans and networks.

/// A small generator of numbers that look random and are the same in each run.
pub struct Numbers(pub u64);

impl Numbers {
    pub fn next(&mut self, below: u64) -> u64 {
        self.0 ^= self.0 << 13;
        self.0 ^= self.0 >> 7;
        self.0 ^= self.0 << 17;
        (self.0 >> 16) % below
    }

    pub fn byte(&mut self, below: u64) -> u8 {
        self.next(below) as u8
    }
}
