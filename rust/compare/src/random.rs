//! Numbers by chance that can be had again: splitmix64.

use std::ops::RangeInclusive;

/// A generator. Each stretch has one of its own, so that what is made of one does not depend on the others.
pub struct Random(u64);

impl Random {
    /// The generator of a stretch.
    pub fn of(seed: u64, stretch: u64) -> Random {
        let mut start = Random(seed);
        Random(start.number() ^ Random(stretch).number())
    }

    /// Any number.
    pub fn number(&mut self) -> u64 {
        self.0 = self.0.wrapping_add(0x9E37_79B9_7F4A_7C15);
        let mixed = (self.0 ^ self.0 >> 30).wrapping_mul(0xBF58_476D_1CE4_E5B9);
        let mixed = (mixed ^ mixed >> 27).wrapping_mul(0x94D0_49BB_1331_11EB);
        mixed ^ mixed >> 31
    }

    /// A number below this one, which is not 0.
    pub fn below(&mut self, bound: usize) -> usize {
        (self.number() % bound as u64) as usize
    }

    /// A number of this range.
    pub fn within(&mut self, range: RangeInclusive<usize>) -> usize {
        range.start() + self.below(range.end() - range.start() + 1)
    }

    /// Whether a chance of one in so many came.
    pub fn one_in(&mut self, of: usize) -> bool {
        self.below(of) == 0
    }

    /// One of these.
    pub fn pick<T: Copy>(&mut self, of: &[T]) -> T {
        of[self.below(of.len())]
    }

    /// Any byte.
    pub fn byte(&mut self) -> u8 {
        self.number() as u8
    }

    /// So many bytes.
    pub fn bytes(&mut self, length: usize) -> Vec<u8> {
        let mut bytes = vec![0; length];
        self.fill(&mut bytes);
        bytes
    }

    /// Puts any bytes here.
    pub fn fill(&mut self, bytes: &mut [u8]) {
        for group in bytes.chunks_mut(8) {
            let number = self.number().to_be_bytes();
            group.copy_from_slice(&number[..group.len()]);
        }
    }
}

#[cfg(test)]
mod tests {
    use super::*;

    #[test]
    fn a_stretch_is_made_again_from_its_seed() {
        let (mut one, mut again) = (Random::of(7, 3), Random::of(7, 3));
        assert_eq!(one.bytes(100), again.bytes(100));
        assert_ne!(Random::of(7, 3).number(), Random::of(7, 4).number());
        assert_ne!(Random::of(7, 3).number(), Random::of(8, 3).number());
    }

    #[test]
    fn ranges_are_kept_and_reached() {
        let mut random = Random::of(1, 1);
        let mut seen = [false; 4];
        for _ in 0..1_000 {
            seen[random.within(5..=8) - 5] = true;
        }
        assert_eq!(seen, [true; 4]);
    }
}
