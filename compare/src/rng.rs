//! A small generator of pseudo-random numbers (splitmix64); fixed by its seed.

#[derive(Clone)]
pub struct Rng(u64);

impl Rng {
    pub fn new(seed: u64) -> Rng {
        Rng(seed)
    }
    pub fn next(&mut self) -> u64 {
        self.0 = self.0.wrapping_add(0x9E37_79B9_7F4A_7C15);
        let mut z = self.0;
        z = (z ^ (z >> 30)).wrapping_mul(0xBF58_476D_1CE4_E5B9);
        z = (z ^ (z >> 27)).wrapping_mul(0x94D0_49BB_1331_11EB);
        z ^ (z >> 31)
    }
    /// 0 to n - 1.
    pub fn under(&mut self, n: usize) -> usize {
        (((self.next() >> 32) * n as u64) >> 32) as usize
    }
    /// a to b, both included.
    pub fn between(&mut self, a: usize, b: usize) -> usize {
        a + self.under(b - a + 1)
    }
    pub fn byte(&mut self) -> u8 {
        self.next() as u8
    }
    /// True in n of 1000.
    pub fn mille(&mut self, n: usize) -> bool {
        self.under(1000) < n
    }
    pub fn pick<T: Copy>(&mut self, from: &[T]) -> T {
        from[self.under(from.len())]
    }
    /// An index, each as often as its weight says.
    pub fn weighted(&mut self, weights: &[usize]) -> usize {
        let mut at = self.under(weights.iter().sum::<usize>().max(1));
        for (i, &w) in weights.iter().enumerate() {
            if at < w {
                return i;
            }
            at -= w;
        }
        0
    }
    pub fn bytes(&mut self, n: usize) -> Vec<u8> {
        (0..n).map(|_| self.byte()).collect()
    }
}
