//! A small generator of numbers from a seed, the same on every machine.

pub struct Random(u64);

impl Random {
    pub fn new(seed: u64) -> Random {
        Random(seed)
    }

    /// The SplitMix64 step.
    fn next(&mut self) -> u64 {
        self.0 = self.0.wrapping_add(0x9E37_79B9_7F4A_7C15);
        let mut z = self.0;
        z = (z ^ (z >> 30)).wrapping_mul(0xBF58_476D_1CE4_E5B9);
        z = (z ^ (z >> 27)).wrapping_mul(0x94D0_49BB_1331_11EB);
        z ^ (z >> 31)
    }

    /// A number under `bound`, which is at least 1.
    pub fn below(&mut self, bound: usize) -> usize {
        ((self.next() >> 16) % bound as u64) as usize
    }

    /// True in so many cases of a hundred.
    pub fn chance(&mut self, percent: usize) -> bool {
        self.below(100) < percent
    }

    pub fn word(&mut self) -> u32 {
        (self.next() >> 16) as u32
    }

    pub fn byte(&mut self) -> u8 {
        self.below(256) as u8
    }

    pub fn bytes(&mut self, count: usize) -> Vec<u8> {
        (0..count).map(|_| self.byte()).collect()
    }

    pub fn pick<T: Clone>(&mut self, from: &[T]) -> T {
        from[self.below(from.len())].clone()
    }

    /// A valid UID of one of the three lengths.
    pub fn uid(&mut self) -> Vec<u8> {
        loop {
            let length = self.pick(&[4, 4, 7, 10]);
            let mut uid = self.bytes(length);
            if self.chance(10) {
                let place = self.below(length);
                uid[place] = crate::uid::TAG;
            }
            if crate::uid::valid(&uid) {
                return uid;
            }
        }
    }
}

#[cfg(test)]
mod tests {
    use super::*;

    #[test]
    fn the_seed_decides() {
        let mut a = Random::new(7);
        let mut b = Random::new(7);
        assert_eq!(a.bytes(32), b.bytes(32));
        assert_ne!(Random::new(8).bytes(32), Random::new(7).bytes(32));
    }
}
