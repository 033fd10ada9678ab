//! A small seeded generator (splitmix64), so that a run can be repeated from its printed seed.

pub struct Rng(u64);

impl Rng {
    pub fn new(seed: u64) -> Rng {
        Rng(seed)
    }

    pub fn next(&mut self) -> u64 {
        self.0 = self.0.wrapping_add(0x9e37_79b9_7f4a_7c15);
        let z = (self.0 ^ (self.0 >> 30)).wrapping_mul(0xbf58_476d_1ce4_e5b9);
        let z = (z ^ (z >> 27)).wrapping_mul(0x94d0_49bb_1331_11eb);
        z ^ (z >> 31)
    }

    /// A number below `limit`, which is not 0. The slant of the remainder does not matter here.
    pub fn below(&mut self, limit: usize) -> usize {
        (self.next() % limit as u64) as usize
    }

    pub fn between(&mut self, least: usize, most: usize) -> usize {
        least + self.below(most - least + 1)
    }

    /// True once in `times`.
    pub fn once_in(&mut self, times: usize) -> bool {
        self.below(times) == 0
    }

    /// A size from 1 up to `usual`, and one time in forty up to `seldom`, so that most calls are quick.
    pub fn size(&mut self, usual: usize, seldom: usize) -> usize {
        let most = if self.once_in(40) { seldom } else { usual };
        self.between(1, most)
    }

    pub fn pick<T: Copy>(&mut self, from: &[T]) -> T {
        from[self.below(from.len())]
    }

    /// A word over all 32 bits; now and then one at an end of the range.
    pub fn word(&mut self) -> u32 {
        match self.below(16) {
            0 => self.pick(&[0, 1, 1 << 31, u32::MAX - 1, u32::MAX]),
            _ => self.next() as u32,
        }
    }

    pub fn words(&mut self, length: usize) -> Vec<u32> {
        (0..length).map(|_| self.word()).collect()
    }

    pub fn bytes(&mut self, length: usize) -> Vec<u8> {
        (0..length).map(|_| self.next() as u8).collect()
    }

    pub fn digest(&mut self) -> [u8; 32] {
        std::array::from_fn(|_| self.next() as u8)
    }

    /// How much longer an output is than it must be: exactly full as often as not.
    pub fn spare(&mut self) -> usize {
        self.below(2) * self.below(5)
    }

    /// One element more or one less.
    pub fn other_length<T: Clone + Default>(&mut self, buffer: &mut Vec<T>) {
        if buffer.is_empty() || self.once_in(2) {
            buffer.push(T::default());
        } else {
            buffer.pop();
        }
    }

    /// b inside 01's limits, each end more often.
    pub fn width(&mut self) -> u32 {
        match self.below(3) {
            0 => self.pick(&[4, 8, 9, 10, 11, 14]),
            _ => self.between(4, 14) as u32,
        }
    }

    /// b outside 01's limits.
    pub fn bad_width(&mut self) -> u32 {
        match self.below(3) {
            0 => self.pick(&[0, 1, 2, 3, 15, 16, 31, 32, 33, 64, 255, 1 << 31, u32::MAX]),
            1 => self.pick(&[3, 15]),
            _ => self.word().max(15),
        }
    }

    /// A dimension outside 1..=largest.
    pub fn bad_dimension(&mut self, largest: usize) -> usize {
        let wraps = 1 << 32;
        self.pick(&[0, largest + 1, largest + 2, 1 << 16, wraps, wraps + 1, 1 << 63, usize::MAX])
    }

    /// An element of a row around 2^b, or any word.
    pub fn around(&mut self, b: u32) -> u32 {
        let edge = 1u32.checked_shl(b).unwrap_or(0);
        match self.below(4) {
            0 => self.pick(&[0, 1, edge.wrapping_sub(1), edge, edge.wrapping_add(1), u32::MAX]),
            1 => self.word() % edge.max(1),
            _ => self.word(),
        }
    }

    /// An interval inside 01's range, small ones as often as large ones.
    pub fn interval(&mut self) -> u32 {
        match self.below(3) {
            0 => self.pick(&[1, 2, 5, 1_431_655_764, 1_431_655_765]),
            1 => self.between(1, 100) as u32,
            _ => self.between(1, 1_431_655_765) as u32,
        }
    }

    pub fn bad_interval(&mut self) -> u32 {
        self.pick(&[0, 1_431_655_766, 1_431_655_767, 1 << 31, u32::MAX - 1, u32::MAX])
    }

    /// A random word for a sampler: from each of the four ranges, or at one of their edges.
    pub fn draw(&mut self, interval: u32) -> u32 {
        let i = u64::from(interval);
        let edge = self.pick(&[0, i, i + 1, 2 * i, 2 * i + 1, 3 * i, 3 * i + 1]);
        let inside = self.pick(&[0, i, 2 * i, 3 * i]) + self.next() % (i + 1);
        let word = if self.once_in(3) { edge } else { inside };
        word.min(u64::from(u32::MAX)) as u32
    }

    /// Four distinct positions below r, which is at least 4.
    pub fn positions(&mut self, r: usize) -> [u32; 4] {
        let mut at = [0; 4];
        for i in 0..4 {
            at[i] = loop {
                let position = self.below(r) as u32;
                if !at[..i].contains(&position) {
                    break position;
                }
            };
        }
        at
    }

    /// Positions bad in the sense of 5.
    pub fn bad_positions(&mut self, r: usize, good: [u32; 4]) -> [u32; 4] {
        let mut at = good;
        let i = self.below(4);
        if self.once_in(2) {
            at[i] = at[(i + self.between(1, 3)) % 4];
        } else {
            at[i] = self.pick(&[r as u32, (r as u32).saturating_add(1), 1 << 31, u32::MAX]);
        }
        at
    }
}
