//! A small generator of numbers (splitmix64), so that a made file is the same
//! wherever it is made.

use std::cell::Cell;

/// Its state is in a cell, so that one draw can be an argument of another.
pub struct Rng(Cell<u64>);

impl Rng {
    pub fn new(seed: u64, index: u64) -> Rng {
        // Mixed once, so that neighbouring seeds and indexes part ways.
        let mixed = Rng(Cell::new(seed)).next();
        let rng = Rng(Cell::new(mixed ^ index.wrapping_mul(0xD1B5_4A32_D192_ED03)));
        rng.next();
        rng
    }

    pub fn next(&self) -> u64 {
        let mut z = self.0.get().wrapping_add(0x9E37_79B9_7F4A_7C15);
        self.0.set(z);
        z = (z ^ (z >> 30)).wrapping_mul(0xBF58_476D_1CE4_E5B9);
        z = (z ^ (z >> 27)).wrapping_mul(0x94D0_49BB_1331_11EB);
        z ^ (z >> 31)
    }

    /// A number below `bound`, which is above 0.
    pub fn below(&self, bound: usize) -> usize {
        (self.next() % bound as u64) as usize
    }

    /// A number from `low` to `high`, both included; `low` where they cross.
    pub fn between(&self, low: usize, high: usize) -> usize {
        low + self.below(high.saturating_sub(low) + 1)
    }

    pub fn percent(&self, chance: usize) -> bool {
        self.below(100) < chance
    }

    pub fn byte(&self) -> u8 {
        self.next() as u8
    }

    pub fn bytes(&self, count: usize) -> Vec<u8> {
        (0..count).map(|_| self.byte()).collect()
    }

    /// One of `items`, which are not none.
    pub fn pick<T: Clone>(&self, items: &[T]) -> T {
        items[self.below(items.len())].clone()
    }

    /// One of `choices` by its weight.
    pub fn weighted<T: Clone>(&self, choices: &[(usize, T)]) -> T {
        let mut ticket = self.below(choices.iter().map(|(weight, _)| weight).sum());
        for (weight, choice) in choices {
            if ticket < *weight {
                return choice.clone();
            }
            ticket -= weight;
        }
        unreachable!("a ticket is below the sum of the weights")
    }

    pub fn shuffle<T>(&self, items: &mut [T]) {
        for i in (1..items.len()).rev() {
            items.swap(i, self.below(i + 1));
        }
    }

    /// `count` numbers below `bound`, all different, in any order.
    pub fn some_below(&self, bound: usize, count: usize) -> Vec<usize> {
        let mut numbers: Vec<usize> = (0..bound).collect();
        self.shuffle(&mut numbers);
        numbers.truncate(count);
        numbers
    }
}
