//! Pairings: the coins of another run that looks the same to the watched members.

use super::dealing::{Circle, NOTHING, Sent, Shares, each};
use super::field::{add, invert, multiply, subtract};
use super::inputs::Hand;
use super::run::Progress;
use super::sheet::{Line, MOST_MEMBERS, Sheet};

#[derive(Debug, PartialEq, Eq)]
pub enum Pairing {
    OpenedDiffers(usize),
    /// The number of the figure among the member's own, from 0, and the member, from 1.
    FigureDiffers(usize, usize),
    /// The second run's coins, for each member in the order of drawing.
    Coins(Vec<Vec<u32>>),
}

/// The coefficients of x, x^2, .. of the product of 1 - x / w over the watched members.
/// There are at most 7 of these, so that all coefficients have a place.
pub fn mask(watched: &[usize]) -> Shares {
    let mut all = [0; MOST_MEMBERS + 1];
    all[0] = 1;
    for &index in watched {
        let part = invert(index as u32 + 1);
        for power in (1..all.len()).rev() {
            all[power] = subtract(all[power], multiply(part, all[power - 1]));
        }
    }
    std::array::from_fn(|power| all[power + 1])
}

struct Both<'a> {
    circle: Circle,
    mask: Shares,
    progress: Progress<'a>,
    second_figures: &'a [Vec<u32>],
    figures_taken: [usize; MOST_MEMBERS],
    watched: &'a [usize],
    values: Vec<[Shares; 2]>,
    coins: Vec<Vec<u32>>,
    opened: usize,
    opened_differs: Option<usize>,
    figure_differs: Option<(usize, usize)>,
}

/// Plays both runs side by side. Figures and coins must suffice, and at most t members be watched.
pub fn pair(sheet: &Sheet, first: &[Hand], second: &[Vec<u32>], watched: &[usize]) -> Pairing {
    let mut both = Both {
        circle: Circle::new(sheet.n, sheet.t),
        mask: mask(watched),
        progress: Progress::new(first, sheet.t),
        second_figures: second,
        figures_taken: [0; MOST_MEMBERS],
        watched,
        values: Vec::with_capacity(sheet.lines.len()),
        coins: first.iter().map(|hand| Vec::with_capacity(hand.coins.len())).collect(),
        opened: 0,
        opened_differs: None,
        figure_differs: None,
    };
    sheet.lines.iter().for_each(|&line| both.play(line));
    both.answer()
}

impl Both<'_> {
    fn play(&mut self, line: Line) {
        let value = |number: u32, run: usize| &self.values[number as usize][run];
        let made = match line {
            Line::Input(member) => self.input(member as usize - 1),
            Line::Sum(a, b) => [0, 1].map(|run| each(value(a, run), value(b, run), add)),
            Line::Times(factor, a) => {
                [0, 1].map(|run| value(a, run).map(|share| multiply(factor, share)))
            }
            Line::Product(a, b) => {
                let products = [0, 1].map(|run| each(value(a, run), value(b, run), multiply));
                self.product(products)
            }
            Line::Open(a) => return self.open(self.values[a as usize]),
        };
        self.values.push(made);
    }

    fn input(&mut self, dealer: usize) -> [Shares; 2] {
        let number = self.figures_taken[dealer];
        self.figures_taken[dealer] += 1;
        let figures = [self.progress.figure(dealer), self.second_figures[dealer][number]];
        if figures[0] != figures[1] && self.watched.contains(&dealer) {
            self.figure_differs.get_or_insert((number, dealer + 1));
        }
        self.deal(dealer, figures)
    }

    fn product(&mut self, products: [Shares; 2]) -> [Shares; 2] {
        let mut sent: [Sent; 2] = [[NOTHING; MOST_MEMBERS]; 2];
        for dealer in 0..self.circle.n {
            let dealt = self.deal(dealer, [products[0][dealer], products[1][dealer]]);
            sent[0][dealer] = dealt[0];
            sent[1][dealer] = dealt[1];
        }
        sent.map(|sent| self.circle.gather(&sent))
    }

    /// Deals a number in each run, the second under the paired coins.
    fn deal(&mut self, dealer: usize, numbers: [u32; 2]) -> [Shares; 2] {
        let t = self.circle.t;
        let coins = self.progress.coins(dealer);
        let change = subtract(numbers[1], numbers[0]);
        let mut paired = NOTHING;
        for (power, &coin) in coins.iter().enumerate() {
            paired[power] = add(coin, multiply(change, self.mask[power]));
        }
        self.coins[dealer].extend_from_slice(&paired[..t]);
        [self.circle.deal(numbers[0], coins), self.circle.deal(numbers[1], &paired[..t])]
    }

    fn open(&mut self, shares: [Shares; 2]) {
        if self.circle.join(&shares[0]) != self.circle.join(&shares[1]) {
            self.opened_differs.get_or_insert(self.opened);
        }
        self.opened += 1;
    }

    fn answer(self) -> Pairing {
        if let Some(number) = self.opened_differs {
            Pairing::OpenedDiffers(number)
        } else if let Some((number, member)) = self.figure_differs {
            Pairing::FigureDiffers(number, member)
        } else {
            Pairing::Coins(self.coins)
        }
    }
}
