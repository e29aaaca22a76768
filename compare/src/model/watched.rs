//! Words that name watched members.

use std::ffi::{OsStr, OsString};
use std::os::unix::ffi::OsStrExt;

/// A decimal number; those too large for any circle are all told as the largest.
fn decimal(word: &OsStr) -> Option<usize> {
    let digits = word.as_bytes();
    if digits.is_empty() || !digits.iter().all(u8::is_ascii_digit) {
        return None;
    }
    let more = |number: usize, &digit: &u8| {
        number.saturating_mul(10).saturating_add((digit - b'0') as usize)
    };
    Some(digits.iter().fold(0, more))
}

/// The numbers of the words, in order and without repetition. None if a word is no number.
pub fn read(words: &[OsString]) -> Option<Vec<usize>> {
    let mut numbers = words.iter().map(|word| decimal(word)).collect::<Option<Vec<usize>>>()?;
    numbers.sort_unstable();
    numbers.dedup();
    Some(numbers)
}

/// The indices from 0 of members in a circle of n. None if one is not in it.
pub fn indices(numbers: &[usize], n: usize) -> Option<Vec<usize>> {
    let index = |&number: &usize| if (1..=n).contains(&number) { Some(number - 1) } else { None };
    numbers.iter().map(index).collect()
}
