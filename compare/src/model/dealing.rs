//! Shares: dealing, joining, and the arithmetic that each member does on its own.

use super::field::{invert, multiply, reduce, subtract};
use super::sheet::MOST_MEMBERS;

/// One number for each member; those past n are not used.
pub type Shares = [u32; MOST_MEMBERS];
/// What each member sent to each.
pub type Sent = [Shares; MOST_MEMBERS];

pub const NOTHING: Shares = [0; MOST_MEMBERS];

#[derive(Clone, Debug)]
pub struct Circle {
    pub n: usize,
    pub t: usize,
    weights: Shares,
}

impl Circle {
    pub fn new(n: usize, t: usize) -> Circle {
        Circle { n, t, weights: weights(2 * t + 1) }
    }

    pub fn weights(&self) -> &[u32] {
        &self.weights[..2 * self.t + 1]
    }

    /// Each member's share of a number under t coins.
    #[inline]
    pub fn deal(&self, number: u32, coins: &[u32]) -> Shares {
        // With members up to 15 and at most 7 coins no sum here passes 2^31 * 15^8 / 14 < 2^60.
        let mut sums = [0u64; MOST_MEMBERS];
        for &coin in coins.iter().rev() {
            for (index, sum) in sums.iter_mut().enumerate() {
                *sum = (*sum + coin as u64) * (index as u64 + 1);
            }
        }
        sums.map(|sum| reduce(sum + number as u64))
    }

    pub fn join(&self, shares: &Shares) -> u32 {
        let weighted = self.weights().iter().zip(shares);
        reduce(weighted.map(|(&weight, &share)| multiply(weight, share) as u64).sum())
    }

    /// Each member's joining of what the first m members sent it.
    #[inline]
    pub fn gather(&self, sent: &Sent) -> Shares {
        let mut sums = [0u64; MOST_MEMBERS];
        for (&weight, row) in self.weights().iter().zip(sent) {
            for (sum, &share) in sums.iter_mut().zip(row) {
                *sum += multiply(weight, share) as u64;
            }
        }
        sums.map(reduce)
    }
}

/// The weight of each of the members 1 to m.
fn weights(m: usize) -> Shares {
    let mut weights = NOTHING;
    for i in 1..=m {
        let (mut above, mut below) = (1, 1);
        for k in (1..=m).filter(|&k| k != i) {
            above = multiply(above, k as u32);
            below = multiply(below, subtract(k as u32, i as u32));
        }
        weights[i - 1] = multiply(above, invert(below));
    }
    weights
}

/// Does the same with each member's two shares.
#[inline]
pub fn each(a: &Shares, b: &Shares, join: impl Fn(u32, u32) -> u32) -> Shares {
    std::array::from_fn(|j| join(a[j], b[j]))
}
