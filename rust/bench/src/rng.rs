//! Random numbers that are the same in every run.

/// Marsaglia's xorshift with 64 bits.
pub struct Rng(u64);

impl Rng {
    pub fn new() -> Rng {
        Rng(0x2545_f491_4f6c_dd1d)
    }

    pub fn next(&mut self) -> u64 {
        self.0 ^= self.0 << 13;
        self.0 ^= self.0 >> 7;
        self.0 ^= self.0 << 17;
        self.0
    }

    pub fn below(&mut self, n: u64) -> u64 {
        self.next() % n
    }

    /// From 0 to 1, without 1.
    pub fn unit(&mut self) -> f64 {
        (self.next() >> 11) as f64 / (1u64 << 53) as f64
    }

    pub fn pick<T: Copy>(&mut self, from: &[T]) -> T {
        from[self.below(from.len() as u64) as usize]
    }
}

/// The numbers below n in an order without pattern: the k-th of them.
pub fn scattered(k: u32, n: u32) -> u32 {
    let bits = 32 - n.leading_zeros();
    let mut x = k;
    loop {
        // multiplying by an odd number and folding the upper half down each take `bits` bits to other `bits` bits, one to one
        for odd in [0x9e37_79b1, 0x85eb_ca77u32] {
            x = (x.wrapping_mul(odd) ^ 0x5bd1) & (u32::MAX >> (32 - bits));
            x ^= x >> bits.div_ceil(2);
        }
        if x < n {
            return x;
        }
    }
}
