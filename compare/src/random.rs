//! A small generator of random numbers (SplitMix64). The same seed gives the same numbers, so every
//! case can be made again from its seed.

/// The generator.
pub struct Random(u64);

impl Random {
    /// A generator that starts from this seed.
    pub fn new(seed: u64) -> Random {
        Random(seed)
    }

    /// The generator of one case: another one for each seed, sort and case.
    pub fn of_case(seed: u64, sort: u64, case: u64) -> Random {
        let mut random = Random(seed);
        random.0 = random.number() ^ sort;
        random.0 = random.number() ^ case;
        random
    }

    /// A generator that goes by these words, another one where they are others.
    pub fn of_words(words: &[u64]) -> Random {
        // Each word times an odd number of its own.
        let times = |(place, &word): (usize, &u64)| word.wrapping_mul(2 * place as u64 + 1);
        let mixed = words
            .iter()
            .enumerate()
            .map(times)
            .fold(0, u64::wrapping_add);
        Random(mixed)
    }

    /// Any number of 64 bits.
    pub fn number(&mut self) -> u64 {
        self.0 = self.0.wrapping_add(0x9e37_79b9_7f4a_7c15);
        let mut mixed = self.0;
        mixed = (mixed ^ (mixed >> 30)).wrapping_mul(0xbf58_476d_1ce4_e5b9);
        mixed = (mixed ^ (mixed >> 27)).wrapping_mul(0x94d0_49bb_1331_11eb);
        mixed ^ (mixed >> 31)
    }

    /// A number under `count`, which is not 0.
    pub fn under(&mut self, count: usize) -> usize {
        (self.number() % count as u64) as usize
    }

    /// A number from `low` to `high`, both included.
    pub fn between(&mut self, low: usize, high: usize) -> usize {
        low + self.under(high - low + 1)
    }

    /// Yes in this many cases of a hundred.
    pub fn chance(&mut self, percent: usize) -> bool {
        self.under(100) < percent
    }

    /// One of the choices, of which there is at least one.
    pub fn one_of<T: Copy>(&mut self, choices: &[T]) -> T {
        choices[self.under(choices.len())]
    }

    /// `count` different ones of the choices, in random order.
    pub fn some_of(&mut self, choices: &[u8], count: usize) -> Vec<u8> {
        let mut left = choices.to_vec();
        (0..count)
            .map(|_| left.swap_remove(self.under(left.len())))
            .collect()
    }

    /// Different links of `links` in random order, 1 to 8 of them.
    pub fn path(&mut self, links: &[u8]) -> Vec<u8> {
        let length = self.between(1, links.len().min(8));
        self.some_of(links, length)
    }

    /// A byte that is likely to matter in a record: a limit, or one past it.
    pub fn odd_byte(&mut self) -> u8 {
        match self.chance(70) {
            true => self.one_of(&[0, 1, 2, 3, 4, 5, 6, 8, 9, 31, 32, 63, 64, 255]),
            false => self.number() as u8,
        }
    }
}
