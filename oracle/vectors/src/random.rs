//! Numbers from a seed: the same on every machine (SplitMix64).

pub struct Random(u64);

impl Random {
    pub fn new(seed: u64) -> Random {
        Random(seed)
    }

    fn next(&mut self) -> u64 {
        self.0 = self.0.wrapping_add(0x9e37_79b9_7f4a_7c15);
        let mut z = self.0;
        z = (z ^ (z >> 30)).wrapping_mul(0xbf58_476d_1ce4_e5b9);
        z = (z ^ (z >> 27)).wrapping_mul(0x94d0_49bb_1331_11eb);
        z ^ (z >> 31)
    }

    pub fn below(&mut self, end: u64) -> u64 {
        self.next() % end
    }

    /// From `low` to `high`, both included.
    pub fn size(&mut self, low: usize, high: usize) -> usize {
        low + self.below((high - low + 1) as u64) as usize
    }

    pub fn word(&mut self) -> u32 {
        self.next() as u32
    }

    pub fn words(&mut self, length: usize) -> Vec<u32> {
        (0..length).map(|_| self.word()).collect()
    }

    /// Words of b bits.
    pub fn elements(&mut self, b: u32, length: usize) -> Vec<u32> {
        (0..length).map(|_| self.below(1 << b) as u32).collect()
    }

    pub fn bytes(&mut self, length: usize) -> Vec<u8> {
        (0..length).map(|_| self.below(256) as u8).collect()
    }

    pub fn digest(&mut self) -> [u8; 32] {
        std::array::from_fn(|_| self.below(256) as u8)
    }

    /// Four different positions below r.
    pub fn positions(&mut self, r: usize) -> [u32; 4] {
        let mut rest: Vec<u32> = (0..r as u32).collect();
        std::array::from_fn(|_| rest.swap_remove(self.below(rest.len() as u64) as usize))
    }
}
