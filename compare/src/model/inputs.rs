//! Inputs and figures of a circle, and orders of delivery.

use super::bytes::Rest;
use super::field::P;

/// What one member brings to a run.
#[derive(Clone, Debug, Default, PartialEq, Eq)]
pub struct Hand {
    pub figures: Vec<u32>,
    pub coins: Vec<u32>,
}

pub fn read_inputs(bytes: &[u8], n: usize) -> Result<Vec<Hand>, u8> {
    let mut rest = Rest(bytes);
    let mut hands = Vec::with_capacity(n);
    for _ in 0..n {
        let figures: Vec<u32> = rest.counted_words().ok_or(1)?.collect();
        let coins = coins_of(rest.counted_words().ok_or(1)?);
        hands.push(Hand { figures, coins });
    }
    judge_end(&rest)?;
    hands.iter().try_for_each(|hand| judge_figures(&hand.figures))?;
    Ok(hands)
}

pub fn read_figures(bytes: &[u8], n: usize) -> Result<Vec<Vec<u32>>, u8> {
    let mut rest = Rest(bytes);
    let mut lists = Vec::with_capacity(n);
    for _ in 0..n {
        lists.push(rest.counted_words().ok_or(1)?.collect::<Vec<u32>>());
    }
    judge_end(&rest)?;
    lists.iter().try_for_each(|figures| judge_figures(figures))?;
    Ok(lists)
}

/// The order itself is not used: only its length can be wrong.
pub fn judge_order(bytes: &[u8]) -> Result<(), u8> {
    if bytes.len().is_multiple_of(4) { Ok(()) } else { Err(1) }
}

/// The top bit of each word is dropped, and words that are then P are passed over.
pub fn coins_of(words: impl Iterator<Item = u32>) -> Vec<u32> {
    words.map(|word| word & P).filter(|&coin| coin != P).collect()
}

fn judge_end(rest: &Rest) -> Result<(), u8> {
    if rest.is_empty() { Ok(()) } else { Err(1) }
}

fn judge_figures(figures: &[u32]) -> Result<(), u8> {
    if figures.iter().all(|&figure| figure < P) { Ok(()) } else { Err(3) }
}
