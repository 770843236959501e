//! Seeded random numbers (splitmix64).

pub struct Random(u64);

impl Random {
    pub fn new(seed: u64) -> Self {
        Random(seed.wrapping_mul(0x9E37_79B9_7F4A_7C15))
    }

    pub fn bits(&mut self) -> u64 {
        self.0 = self.0.wrapping_add(0x9E37_79B9_7F4A_7C15);
        let mut z = self.0;
        z = (z ^ (z >> 30)).wrapping_mul(0xBF58_476D_1CE4_E5B9);
        z = (z ^ (z >> 27)).wrapping_mul(0x94D0_49BB_1331_11EB);
        z ^ (z >> 31)
    }

    /// A number below `n`, which is not 0.
    pub fn below(&mut self, n: usize) -> usize {
        (self.bits() % n as u64) as usize
    }

    /// True once in `n` times.
    pub fn once_in(&mut self, n: usize) -> bool {
        self.below(n) == 0
    }

    pub fn pick<T: Copy>(&mut self, from: &[T]) -> T {
        from[self.below(from.len())]
    }

    /// So many bytes.
    pub fn bytes(&mut self, len: usize) -> Vec<u8> {
        let words = (0..len.div_ceil(8)).flat_map(|_| self.bits().to_le_bytes());
        words.take(len).collect()
    }

    /// A text of at most `most` bytes out of few letters, zero and FF among them, so that texts repeat and are prefixes.
    pub fn text(&mut self, most: usize) -> Vec<u8> {
        let len = self.below(most + 1);
        (0..len).map(|_| self.pick(b"aab\0\xFF")).collect()
    }

    /// At most `most` items that stand beside each other.
    pub fn part<'a, T>(&mut self, items: &'a [T], most: usize) -> &'a [T] {
        let start = self.below(items.len() + 1);
        let end = (start + self.below(most + 1)).min(items.len());
        &items[start..end]
    }

    /// The bits of a binary64, finite but once in `spoilt` times.
    pub fn float(&mut self, spoilt: usize) -> u64 {
        if self.once_in(spoilt) {
            return self
                .pick(&[f64::INFINITY, f64::NEG_INFINITY, f64::NAN])
                .to_bits();
        }
        let ends = [0.0, -0.0, 1.0, -1.5, f64::MAX, f64::MIN_POSITIVE, 5e-324];
        match self.below(3) {
            0 => self.pick(&ends).to_bits(),
            1 => (self.below(2000) as f64 - 1000.0).to_bits(),
            _ => self.bits() & 0xBFEF_FFFF_FFFF_FFFF,
        }
    }
}
