//! A small seeded source of numbers (splitmix64): one seed, one script, on every machine.

pub struct Rng(u64);

impl Rng {
    pub fn new(seed: u64) -> Rng {
        Rng(seed)
    }

    pub fn next(&mut self) -> u64 {
        self.0 = self.0.wrapping_add(0x9e37_79b9_7f4a_7c15);
        let mut z = self.0;
        z = (z ^ (z >> 30)).wrapping_mul(0xbf58_476d_1ce4_e5b9);
        z = (z ^ (z >> 27)).wrapping_mul(0x94d0_49bb_1331_11eb);
        z ^ (z >> 31)
    }

    /// The bias of the remainder is far too small to matter here.
    pub fn below(&mut self, bound: u64) -> u64 {
        self.next() % bound
    }

    /// Both ends included.
    pub fn within(&mut self, low: u64, high: u64) -> u64 {
        low + self.below(high - low + 1)
    }

    pub fn chance(&mut self, percent: u64) -> bool {
        self.below(100) < percent
    }

    pub fn pick<'a, T>(&mut self, from: &'a [T]) -> &'a T {
        &from[self.below(from.len() as u64) as usize]
    }

    pub fn octets(&mut self, count: u64) -> Vec<u8> {
        (0..count).map(|_| self.next() as u8).collect()
    }

    /// Between `low` and `high` octets, both included.
    pub fn some_octets(&mut self, low: u64, high: u64) -> Vec<u8> {
        let count = self.within(low, high);
        self.octets(count)
    }

    pub fn letters(&mut self, count: u64) -> Vec<u8> {
        (0..count).map(|_| b'a' + self.below(26) as u8).collect()
    }

    pub fn algorithm(&mut self) -> u64 {
        *self.pick(&crate::wire::ALGORITHMS)
    }

    /// So that the interval is good (02 CR 5), over the wrap or not.
    pub fn expiration_after(&mut self, inception: u32) -> u32 {
        inception.wrapping_add(self.within(1, 0x7fff_ffff) as u32)
    }

    /// The same name to a reader that ignores case, other octets to one that does not.
    pub fn mixed_case(&mut self, name: &[u8]) -> Vec<u8> {
        name.iter()
            .map(|&o| {
                if o.is_ascii_alphabetic() && self.chance(50) {
                    o ^ 0x20
                } else {
                    o
                }
            })
            .collect()
    }
}
