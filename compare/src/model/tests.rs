//! Small cases worked out by hand.

use super::answer::write_numbers;
use super::dealing::{Circle, NOTHING, Sent};
use super::field::{P, invert, multiply, reduce};
use super::inputs::{Hand, coins_of, judge_order, read_figures, read_inputs};
use super::pairing::{Pairing, mask, pair};
use super::run::run;
use super::sheet::{Line, Sheet};
use super::supply::{Short, count, judge};

fn hand(figures: &[u32], coins: &[u32]) -> Hand {
    Hand { figures: figures.to_vec(), coins: coins.to_vec() }
}

fn sheet(lines: &[Line]) -> Sheet {
    Sheet { n: 3, t: 1, lines: lines.to_vec() }
}

fn bytes(n: u8, t: u8, lines: &[(u8, u32, u32)]) -> Vec<u8> {
    let mut bytes = vec![1, n, t, (lines.len() / 256) as u8, lines.len() as u8];
    for (kind, a, b) in lines {
        bytes.push(*kind);
        bytes.extend(a.to_be_bytes());
        bytes.extend(b.to_be_bytes());
    }
    bytes
}

fn number(bytes: &[u8]) -> u8 {
    Sheet::read(bytes).map_or_else(|number| number, |_| 0)
}

#[test]
fn field() {
    assert_eq!(reduce(u64::MAX), (u64::MAX % P as u64) as u32);
    assert_eq!(reduce(P as u64), 0);
    assert_eq!(reduce(2 * P as u64), 0);
    assert_eq!(multiply(3, invert(3)), 1);
    assert_eq!(multiply(P - 1, P - 1), 1);
}

#[test]
fn shares_and_weights() {
    let circle = Circle::new(3, 1);
    assert_eq!(circle.deal(5, &[2])[..3], [7, 9, 11]);
    assert_eq!(circle.weights(), [3, P - 3, 1]);
    assert_eq!(circle.join(&circle.deal(5, &[2])), 5);
}

#[test]
fn largest_shares_do_not_overflow() {
    let circle = Circle::new(15, 7);
    let shares = circle.deal(P - 1, &[P - 1; 7]);
    assert_eq!(shares[14], multiply(P - 1, (0..8).map(|k| 15u32.pow(k)).sum()));
    assert_eq!(circle.join(&shares), P - 1);
}

#[test]
fn product_of_two_sharings() {
    let circle = Circle::new(3, 1);
    let mut sent: Sent = [NOTHING; 15];
    for (row, product) in sent.iter_mut().zip([49, 99, 165]) {
        *row = circle.deal(product, &[1]);
    }
    assert_eq!(sent[0][..3], [50, 51, 52]);
    assert_eq!(sent[1][..3], [100, 101, 102]);
    assert_eq!(sent[2][..3], [166, 167, 168]);
    let shares = circle.gather(&sent);
    assert_eq!(shares[..3], [16, 17, 18]);
    assert_eq!(circle.join(&shares), 15);
}

#[test]
fn run_with_watched() {
    let sheet = sheet(&[Line::Input(1), Line::Input(2), Line::Product(0, 1), Line::Open(2)]);
    let hands = [hand(&[5], &[2, 1]), hand(&[3], &[4, 1]), hand(&[], &[1])];
    let outcome = run(&sheet, &hands, &[1]);
    assert_eq!(outcome.opened, [15]);
    assert_eq!(outcome.seen, [9, 3, 4, 11, 1, 51, 101, 167, 16, 17, 18]);
    assert_eq!(run(&sheet, &hands, &[]).seen, []);
}

#[test]
fn paired_coins() {
    let sheet = sheet(&[Line::Input(1), Line::Input(2), Line::Sum(0, 1), Line::Open(2)]);
    let first = [hand(&[5], &[2]), hand(&[3], &[4]), hand(&[], &[])];
    let coins = vec![vec![715827884], vec![1431655769], vec![]];
    let second = [vec![6], vec![2], vec![]];
    assert_eq!(pair(&sheet, &first, &second, &[2]), Pairing::Coins(coins));
    let second = [vec![6], vec![3], vec![]];
    assert_eq!(pair(&sheet, &first, &second, &[2]), Pairing::OpenedDiffers(0));
    let second = [vec![6], vec![2], vec![]];
    assert_eq!(pair(&sheet, &first, &second, &[1]), Pairing::FigureDiffers(0, 2));
}

#[test]
fn masks() {
    assert_eq!(mask(&[]), NOTHING);
    // (1 - x) (1 - x / 2) = 1 - 3/2 x + 1/2 x^2
    let half = invert(2);
    assert_eq!(mask(&[0, 1])[..3], [multiply(P - 3, half), half, 0]);
}

#[test]
fn refusals_of_sheets() {
    assert_eq!(number(&bytes(3, 1, &[(1, 3, 0), (5, 0, 0)])), 0);
    assert_eq!(number(&[]), 1);
    assert_eq!(number(&bytes(3, 1, &[])), 2);
    assert_eq!(number(&bytes(3, 1, &[(1, 3, 1)])), 1);
    assert_eq!(number(&bytes(0, 1, &[(6, 3, 0)])), 1);
    assert_eq!(number(&bytes(3, 2, &[(1, 9, 0)])), 2);
    assert_eq!(number(&bytes(3, 128, &[(1, 1, 0)])), 2);
    assert_eq!(number(&bytes(3, 1, &[(1, 4, 0)])), 3);
    assert_eq!(number(&bytes(3, 1, &[(1, 1, 0), (2, 0, P)])), 3);
    assert_eq!(number(&bytes(3, 1, &[(1, 1, 0), (5, 0, 0), (5, 1, 0)])), 4);
    assert_eq!(number(&bytes(3, 1, &[(1, 1, 0); 1024])), 0);
    assert_eq!(number(&bytes(3, 1, &[(1, 1, 0); 1025])), 12);
    assert_eq!(number(&bytes(3, 1, &[(1, 1, 0); 4097])), 2);
}

#[test]
fn refusals_of_other_files() {
    assert_eq!(judge_order(&[0; 8]), Ok(()));
    assert_eq!(judge_order(&[0; 9]), Err(1));
    assert_eq!(read_figures(&[0, 0, 0, 1, 0, 0, 0, 7], 1), Ok(vec![vec![7]]));
    assert_eq!(read_figures(&[255; 4], 1), Err(1));
    assert_eq!(read_figures(&[0, 0, 0, 1, 127, 255, 255, 255], 1), Err(3));
    assert_eq!(read_figures(&[0, 0, 0, 1, 127, 255, 255, 255, 0], 1), Err(1));
    assert_eq!(read_inputs(&[0; 8], 1), Ok(vec![Hand::default()]));
    assert_eq!(read_inputs(&[0; 12], 1), Err(1));
    assert_eq!(coins_of([P, 1, u32::MAX, 0x8000_0002].into_iter()), [1, 2]);
}

#[test]
fn figures_run_out_before_coins() {
    let sheet = sheet(&[Line::Input(1), Line::Product(0, 0)]);
    let supply = |figures: &[u32], coins: [u32; 3]| {
        let figures = count([figures.to_vec()].iter());
        judge(&sheet, &[figures], count(coins.map(|coins| vec![0; coins as usize]).iter()))
    };
    assert_eq!(supply(&[5], [2, 1, 1]), Ok(()));
    assert_eq!(supply(&[], [0, 0, 0]), Err(Short { line: 0, number: 10 }));
    assert_eq!(supply(&[5], [0, 1, 1]), Err(Short { line: 0, number: 11 }));
    assert_eq!(supply(&[5], [2, 1, 0]), Err(Short { line: 1, number: 11 }));
}

#[test]
fn either_run_may_run_out() {
    let sheet = sheet(&[Line::Input(1), Line::Input(1)]);
    let counts = |own: usize| count([vec![0; own]].iter());
    let judged =
        |first, second, coins| judge(&sheet, &[counts(first), counts(second)], counts(coins));
    assert_eq!(judged(2, 2, 2), Ok(()));
    assert_eq!(judged(1, 2, 2), Err(Short { line: 1, number: 10 }));
    assert_eq!(judged(2, 1, 1), Err(Short { line: 1, number: 10 }));
    assert_eq!(judged(2, 1, 0), Err(Short { line: 0, number: 11 }));
}

#[test]
fn figures_that_are_not_taken_may_differ() {
    let sheet = sheet(&[Line::Input(3), Line::Input(1)]);
    let first = [hand(&[5], &[2]), hand(&[], &[]), hand(&[7, 1], &[9])];
    let second = [vec![6], vec![], vec![7, 2]];
    let coins = vec![vec![715827884], vec![], vec![9]];
    assert_eq!(pair(&sheet, &first, &second, &[2]), Pairing::Coins(coins));
}

#[test]
fn numbers_as_text() {
    let mut text = Vec::new();
    write_numbers(&[0, 7, 10, 2147483646, u32::MAX], &mut text);
    assert_eq!(text, b"0\n7\n10\n2147483646\n4294967295\n");
}
