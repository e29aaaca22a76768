//! The run on shares: what is opened, and what watched members see.

use super::dealing::{Circle, NOTHING, Sent, Shares, each};
use super::field::{add, multiply};
use super::inputs::Hand;
use super::sheet::{Line, MOST_MEMBERS, Sheet};

#[derive(Debug, PartialEq, Eq)]
pub struct Outcome {
    pub opened: Vec<u32>,
    pub seen: Vec<u32>,
}

/// How far each member is in its figures and coins.
pub struct Progress<'a> {
    hands: &'a [Hand],
    t: usize,
    figures: [usize; MOST_MEMBERS],
    coins: [usize; MOST_MEMBERS],
}

impl<'a> Progress<'a> {
    pub fn new(hands: &'a [Hand], t: usize) -> Progress<'a> {
        Progress { hands, t, figures: [0; MOST_MEMBERS], coins: [0; MOST_MEMBERS] }
    }

    pub fn figure(&mut self, index: usize) -> u32 {
        self.figures[index] += 1;
        self.hands[index].figures[self.figures[index] - 1]
    }

    /// The next t coins.
    pub fn coins(&mut self, index: usize) -> &'a [u32] {
        let from = self.coins[index];
        self.coins[index] += self.t;
        &self.hands[index].coins[from..from + self.t]
    }
}

struct Run<'a> {
    circle: Circle,
    progress: Progress<'a>,
    values: Vec<Shares>,
    /// Indices from 0, in order.
    watched: &'a [usize],
    opened: Vec<u32>,
    seen: Vec<u32>,
}

/// Plays a sheet. Figures and coins must suffice; watched members are indices from 0, in order.
pub fn run(sheet: &Sheet, hands: &[Hand], watched: &[usize]) -> Outcome {
    let mut run = Run {
        circle: Circle::new(sheet.n, sheet.t),
        progress: Progress::new(hands, sheet.t),
        values: Vec::with_capacity(sheet.lines.len()),
        watched,
        opened: Vec::new(),
        seen: Vec::with_capacity(most_seen(sheet, watched.len())),
    };
    sheet.lines.iter().for_each(|&line| run.play(line));
    Outcome { opened: run.opened, seen: run.seen }
}

impl Run<'_> {
    fn play(&mut self, line: Line) {
        let value = |number: u32| &self.values[number as usize];
        let made = match line {
            Line::Input(member) => self.input(member as usize - 1),
            Line::Sum(a, b) => each(value(a), value(b), add),
            Line::Times(factor, a) => value(a).map(|share| multiply(factor, share)),
            Line::Product(a, b) => self.product(each(value(a), value(b), multiply)),
            Line::Open(a) => return self.open(*value(a)),
        };
        self.values.push(made);
    }

    fn input(&mut self, dealer: usize) -> Shares {
        let figure = self.progress.figure(dealer);
        let coins = self.progress.coins(dealer);
        let shares = self.circle.deal(figure, coins);
        if self.watched.contains(&dealer) {
            self.seen.push(figure);
            self.seen.extend_from_slice(coins);
        }
        self.seen.extend(self.watched.iter().map(|&member| shares[member]));
        shares
    }

    /// Every member deals the product of its own two shares.
    fn product(&mut self, products: Shares) -> Shares {
        let mut sent: Sent = [NOTHING; MOST_MEMBERS];
        for dealer in 0..self.circle.n {
            let coins = self.progress.coins(dealer);
            sent[dealer] = self.circle.deal(products[dealer], coins);
            if self.watched.contains(&dealer) {
                self.seen.extend_from_slice(coins);
            }
        }
        for row in &sent[..self.circle.n] {
            self.seen.extend(self.watched.iter().map(|&member| row[member]));
        }
        self.circle.gather(&sent)
    }

    fn open(&mut self, shares: Shares) {
        self.opened.push(self.circle.join(&shares));
        if !self.watched.is_empty() {
            self.seen.extend_from_slice(&shares[..self.circle.n]);
        }
    }
}

/// No run shows more numbers than this.
fn most_seen(sheet: &Sheet, watched: usize) -> usize {
    if watched == 0 {
        return 0;
    }
    let shown = |line: &Line| match line {
        Line::Input(_) => 1 + sheet.t + watched,
        Line::Product(..) => (sheet.t + sheet.n) * watched,
        Line::Open(_) => sheet.n,
        _ => 0,
    };
    sheet.lines.iter().map(shown).sum()
}
