//! Damage to files: some of it breaks them, some only makes them other files.

use super::encode::Words;
use super::random::Random;
use crate::model::field::P;

const HEAD: usize = 5;
const LINE: usize = 9;

/// Flipped bits, cuts, added and changed bytes, at any place.
pub fn any_bytes(random: &mut Random, bytes: &mut Vec<u8>) {
    for _ in 0..random.between(1, 3) {
        match random.below(6) {
            0 | 1 => change_byte(random, bytes, |byte, random| byte ^ 1 << random.below(8)),
            2 => change_byte(random, bytes, |_, random| random.next() as u8),
            3 => bytes.truncate(random.between(0, bytes.len())),
            4 => add_bytes(random, bytes),
            _ => cut_out(random, bytes),
        }
    }
}

fn change_byte(random: &mut Random, bytes: &mut [u8], new: impl Fn(u8, &mut Random) -> u8) {
    if !bytes.is_empty() {
        let place = random.below(bytes.len());
        bytes[place] = new(bytes[place], random);
    }
}

fn add_bytes(random: &mut Random, bytes: &mut Vec<u8>) {
    let place = if random.chance(50) { bytes.len() } else { random.between(0, bytes.len()) };
    for _ in 0..*random.pick(&[1, 1, 2, 4, 8, 9, 18]) {
        bytes.insert(place, random.next() as u8 & *random.pick(&[0, 1, 255]));
    }
}

fn cut_out(random: &mut Random, bytes: &mut Vec<u8>) {
    let length = (*random.pick(&[1, 1, 2, 4, 8, 9, 18])).min(bytes.len());
    let place = random.between(0, bytes.len() - length);
    bytes.drain(place..place + length);
}

/// One to three pieces of damage that a sheet's form allows.
pub fn sheet(random: &mut Random, bytes: &mut Vec<u8>) {
    for _ in 0..*random.pick(&[1, 1, 1, 2, 3]) {
        let lines = (bytes.len() - HEAD) / LINE;
        match random.weighted(&[2, 5, 5, 4, 2, 25, 2]) {
            0 => bytes[0] = *random.pick(&[0, 2, 3, 128, 255]),
            1 => bytes[1] = *random.pick(&[0, 16, 17, 31, 128, 255, 1, 2, 15]),
            2 => bytes[2] = *random.pick(&[bytes[1] / 2, bytes[1] / 2 + 1, 8, 127, 128, 129, 255]),
            3 => count(random, bytes, lines),
            4 => repeat_last(random, bytes, lines),
            5 if lines > 0 => {
                let number = random.below(lines);
                line(random, bytes, number);
            }
            _ => bytes.truncate(bytes.len() - random.between(0, bytes.len() - HEAD) / LINE * LINE),
        }
        if bytes.len() % LINE != HEAD {
            return;
        }
    }
}

/// A count that doesn't fit, or no line at all.
fn count(random: &mut Random, bytes: &mut Vec<u8>, lines: usize) {
    let told = *random.pick(&[lines + 1, lines.wrapping_sub(1), 0, 65_535, lines ^ 256]);
    bytes[3..5].copy_from_slice(&(told as u16).to_be_bytes());
    if random.chance(50) {
        bytes[3..5].fill(0);
        bytes.truncate(HEAD);
    }
}

/// The last line some more times, and the count with it.
fn repeat_last(random: &mut Random, bytes: &mut Vec<u8>, lines: usize) {
    if lines == 0 {
        return;
    }
    let last = bytes[bytes.len() - LINE..].to_vec();
    let more = *random.pick(&[1, 2, 1_025, 4_096, 4_097, 5_000]);
    (0..more).for_each(|_| bytes.extend(&last));
    tell_count(bytes);
}

/// Makes the count fit the bytes.
pub fn tell_count(bytes: &mut [u8]) {
    let lines = ((bytes.len() - HEAD) / LINE) as u16;
    bytes[3..5].copy_from_slice(&lines.to_be_bytes());
}

/// Damage to one line.
pub fn line(random: &mut Random, bytes: &mut [u8], number: usize) {
    let (n, made) = (bytes[1] as u32, made_before(bytes, number));
    let nine = &mut bytes[HEAD + number * LINE..][..LINE];
    let place = *random.pick(&[1, 5]);
    match random.below(6) {
        0 => nine[0] = *random.pick(&[0, 6, 7, 129, 255]),
        1 => nine[0] = *random.pick(&[1, 2, 3, 4, 5]),
        2 => put(nine, place, random.large()),
        3 => {
            nine[0] = 1;
            put(nine, 1, *random.pick(&[0, n + 1, 16, 257, P - 1, P]));
            put(nine, 5, *random.pick(&[0, 0, 0, 1, 256, P]));
        }
        4 => put(nine, place, *random.pick(&[made, made, made + 1, made + 256, P - 1])),
        _ => {
            nine[0] = 5;
            put(nine, 1, made.wrapping_sub(random.below(2) as u32));
            put(nine, 5, *random.pick(&[0, 0, 1, 1 << 31]));
        }
    }
}

/// How many values are made before a line.
fn made_before(bytes: &[u8], number: usize) -> u32 {
    let lines = bytes[HEAD..].chunks_exact(LINE).take(number);
    lines.filter(|nine| nine[0] != 5).count() as u32
}

fn put(bytes: &mut [u8], place: usize, word: u32) {
    bytes[place..place + 4].copy_from_slice(&word.to_be_bytes());
}

/// Figures that are too large, in one or two places.
pub fn large_figures(random: &mut Random, lists: &mut [Vec<u32>]) {
    for _ in 0..random.between(1, 2) {
        let list = random.below(lists.len());
        let place = random.between(0, lists[list].len());
        lists[list].insert(place, random.large());
    }
}

/// A wrong count in a file of lists of these lengths.
pub fn list_count(random: &mut Random, bytes: &mut [u8], lengths: &[usize]) {
    let list = random.below(lengths.len());
    let place = lengths[..list].iter().map(|length| 4 + 4 * length).sum::<usize>();
    let length = lengths[list] as u32;
    let wrong = [length + 1, length.wrapping_sub(1), length ^ (1 << 30), u32::MAX, 1 << 31, 0];
    put(bytes, place, *random.pick(&wrong));
}

/// The lengths of the lists in an inputs file.
pub fn lengths(members: &[Words]) -> Vec<usize> {
    members.iter().flat_map(|member| [member.figures.len(), member.coins.len()]).collect()
}

/// Takes some figures away, so that they may run out.
pub fn short_figures(random: &mut Random, lists: &mut [Vec<u32>]) {
    let list = random.below(lists.len());
    let length = random.between(0, lists[list].len());
    lists[list].truncate(length);
}

/// Takes some coins away, or makes some of them words to be passed over.
pub fn short_coins(random: &mut Random, words: &mut Vec<u32>) {
    if random.chance(50) || words.is_empty() {
        words.truncate(random.between(0, words.len()));
    } else {
        let place = random.below(words.len());
        words[place] |= P;
    }
}
