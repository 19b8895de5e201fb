//! Pseudo-random numbers: splitmix64.

#[derive(Clone)]
pub struct Random(u64);

impl Random {
    /// A stream of its own for each number, so that one session can be made without those before it.
    pub fn new(seed: u64, stream: u64) -> Self {
        let start = Self(seed).next().wrapping_add(stream);
        Self(Self(start).next())
    }

    pub fn next(&mut self) -> u64 {
        self.0 = self.0.wrapping_add(0x9e37_79b9_7f4a_7c15);
        let mixed = (self.0 ^ (self.0 >> 30)).wrapping_mul(0xbf58_476d_1ce4_e5b9);
        let mixed = (mixed ^ (mixed >> 27)).wrapping_mul(0x94d0_49bb_1331_11eb);
        mixed ^ (mixed >> 31)
    }

    /// From `low` to `high`, both reached.
    pub fn between(&mut self, low: u64, high: u64) -> u64 {
        match (high - low).checked_add(1) {
            Some(count) => low + self.next() % count,
            None => self.next(),
        }
    }

    pub fn chance(&mut self, percent: u64) -> bool {
        self.between(1, 100) <= percent
    }

    pub fn place(&mut self, length: usize) -> usize {
        self.between(0, length as u64 - 1) as usize
    }

    pub fn pick<T: Copy>(&mut self, list: &[T]) -> T {
        list[self.place(list.len())]
    }

    /// `count` numbers from 0 to `high`, rising.
    pub fn rising(&mut self, count: u64, high: u64) -> Vec<u64> {
        let mut numbers: Vec<u64> = (0..count).map(|_| self.between(0, high)).collect();
        numbers.sort_unstable();
        numbers
    }

    pub fn shuffle<T>(&mut self, list: &mut [T]) {
        for last in (1..list.len()).rev() {
            list.swap(last, self.place(last + 1));
        }
    }
}

#[cfg(test)]
mod tests {
    use super::*;

    #[test]
    fn the_numbers_are_those_of_splitmix64() {
        let mut random = Random(1234567);
        let numbers = [random.next(), random.next()];
        assert_eq!(numbers, [6457827717110365317, 3203168211198807973]);
    }

    #[test]
    fn both_ends_are_reached() {
        let mut random = Random::new(1, 1);
        let seen: std::collections::BTreeSet<u64> = (0..100).map(|_| random.between(3, 5)).collect();
        assert_eq!(seen, [3, 4, 5].into());
    }
}
