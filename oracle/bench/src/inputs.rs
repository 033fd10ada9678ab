//! The sizes, and words to fill them: repeatable and without any structure that a product could profit from.

pub const R: usize = 4096;
pub const C: usize = 512;
pub const N: usize = 1774;
/// The Rust's own interval.
pub const INTERVAL: u32 = (u32::MAX - 2) / 3;
/// Keys in the builder's database: about what a filter of four positions and R rows takes.
pub const KEYS: usize = 3700;

/// An xorshift generator; the seed is any number but 0.
pub struct Words(pub u64);

impl Words {
    pub fn word(&mut self) -> u32 {
        self.0 ^= self.0 << 13;
        self.0 ^= self.0 >> 7;
        self.0 ^= self.0 << 17;
        (self.0 >> 32) as u32
    }

    pub fn below(&mut self, end: u32) -> u32 {
        self.word() % end
    }

    pub fn words(&mut self, count: usize) -> Vec<u32> {
        (0..count).map(|_| self.word()).collect()
    }

    /// Elements of b bits.
    pub fn elements(&mut self, b: u32, count: usize) -> Vec<u32> {
        (0..count).map(|_| self.below(1 << b)).collect()
    }
}

/// The Rust's reader of matrix bytes is undefined where they don't lie on a word boundary; allocators put them on one.
pub fn aligned(bytes: Vec<u8>) -> Vec<u8> {
    assert_eq!(bytes.as_ptr().align_offset(align_of::<u32>()), 0, "the allocator put bytes at an odd address");
    bytes
}
