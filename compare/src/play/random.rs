//! A small generator (splitmix64), and the numbers that cases are made of.

use crate::model::field::P;

pub struct Random(u64);

impl Random {
    pub fn new(seed: u64) -> Random {
        Random(seed.wrapping_mul(0xd134_2543_de82_ef95) ^ 0x5bf0_3635_dcd1_26a7)
    }

    pub fn next(&mut self) -> u64 {
        self.0 = self.0.wrapping_add(0x9e37_79b9_7f4a_7c15);
        let mixed = (self.0 ^ (self.0 >> 30)).wrapping_mul(0xbf58_476d_1ce4_e5b9);
        let mixed = (mixed ^ (mixed >> 27)).wrapping_mul(0x94d0_49bb_1331_11eb);
        mixed ^ (mixed >> 31)
    }

    /// 0 to limit - 1; limit is not 0.
    pub fn below(&mut self, limit: usize) -> usize {
        (((self.next() >> 32) * limit as u64) >> 32) as usize
    }

    /// Both ends are among the results.
    pub fn between(&mut self, least: usize, most: usize) -> usize {
        least + self.below(most - least + 1)
    }

    pub fn chance(&mut self, percent: usize) -> bool {
        self.below(100) < percent
    }

    pub fn pick<'a, T>(&mut self, list: &'a [T]) -> &'a T {
        &list[self.below(list.len())]
    }

    /// An index, chosen in proportion to its weight.
    pub fn weighted(&mut self, weights: &[usize]) -> usize {
        let mut left = self.below(weights.iter().sum());
        for (index, &weight) in weights.iter().enumerate() {
            if left < weight {
                return index;
            }
            left -= weight;
        }
        unreachable!("the rest is below the sum of the weights")
    }

    pub fn shuffle<T>(&mut self, list: &mut [T]) {
        for last in (1..list.len()).rev() {
            list.swap(last, self.below(last + 1));
        }
    }

    /// A number below P: an edge, a small one, or any.
    pub fn number(&mut self) -> u32 {
        match self.below(8) {
            0 => *self.pick(&[0, 1, 2, P - 1, P - 2, P / 2, P / 2 + 1]),
            1 => self.below(100) as u32,
            _ => self.below(P as usize) as u32,
        }
    }

    /// A number that is P or above.
    pub fn large(&mut self) -> u32 {
        match self.below(2) {
            0 => *self.pick(&[P, P + 1, P + 2, u32::MAX - 1, u32::MAX]),
            _ => P + self.below(P as usize) as u32,
        }
    }
}
