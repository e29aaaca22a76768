//! Good sheets with the figures of two runs that open the same.

use super::encode::Words;
use super::random::Random;
use crate::model::field::{P, add, multiply, subtract};
use crate::model::sheet::{Line, Sheet};

/// What a draft shall be like.
pub struct Wish {
    pub n: usize,
    pub t: usize,
    pub lines: usize,
    /// Input lines come first until there are this many.
    pub least_inputs: usize,
    pub most_inputs: usize,
    /// Members from 1 whose figures are the same in both runs.
    pub kept: Vec<u32>,
    /// Whether both runs shall open the same.
    pub alike: bool,
}

pub struct Draft {
    pub n: usize,
    pub t: usize,
    pub lines: Vec<Line>,
    pub first: Vec<Vec<u32>>,
    pub second: Vec<Vec<u32>>,
}

struct Maker<'a> {
    random: &'a mut Random,
    wish: &'a Wish,
    draft: Draft,
    /// Each value in both runs.
    values: Vec<[u32; 2]>,
    inputs: usize,
    mix: [usize; 5],
}

const MIXES: [[usize; 5]; 5] =
    [[4, 4, 3, 4, 3], [10, 2, 2, 2, 2], [3, 1, 1, 12, 2], [3, 8, 8, 0, 3], [3, 2, 2, 4, 12]];

impl Draft {
    pub fn make(random: &mut Random, wish: &Wish) -> Draft {
        let draft = Draft {
            n: wish.n,
            t: wish.t,
            lines: Vec::new(),
            first: vec![Vec::new(); wish.n],
            second: vec![Vec::new(); wish.n],
        };
        let mix = *random.pick(&MIXES);
        let mut maker = Maker { random, wish, draft, values: Vec::new(), inputs: 0, mix };
        while maker.draft.lines.len() < wish.lines {
            maker.add_line();
        }
        maker.draft
    }

    /// A sheet that is already made, with new figures for both runs.
    pub fn of_sheet(random: &mut Random, sheet: Sheet) -> Draft {
        let mut first = vec![Vec::new(); sheet.n];
        for line in &sheet.lines {
            if let Line::Input(member) = *line {
                first[member as usize - 1].push(random.number());
            }
        }
        let second = first.clone();
        Draft { n: sheet.n, t: sheet.t, lines: sheet.lines, first, second }
    }

    pub fn is_input(&self, line: usize) -> bool {
        matches!(self.lines[line], Line::Input(_))
    }

    /// The index of an input line's member, and how many figures and coins it used before.
    pub fn used_before(&self, line: usize) -> (usize, usize, usize) {
        let Line::Input(member) = self.lines[line] else {
            panic!("only input lines have a member");
        };
        let before = &self.lines[..line];
        let figures = before.iter().filter(|&&line| line == Line::Input(member)).count();
        let products = before.iter().filter(|line| matches!(line, Line::Product(..))).count();
        (member as usize - 1, figures, (figures + products) * self.t)
    }

    /// How many coins each member draws.
    pub fn coins_wanted(&self) -> Vec<usize> {
        let mut wanted = vec![0; self.n];
        for line in &self.lines {
            match *line {
                Line::Input(member) => wanted[member as usize - 1] += self.t,
                Line::Product(..) => wanted.iter_mut().for_each(|coins| *coins += self.t),
                _ => {}
            }
        }
        wanted
    }
}

impl Maker<'_> {
    fn add_line(&mut self) {
        if self.values.is_empty() || self.inputs < self.wish.least_inputs {
            return self.input();
        }
        match self.random.weighted(&self.mix) {
            0 if self.inputs < self.wish.most_inputs => self.input(),
            0 | 1 => self.sum(),
            2 => self.times(),
            3 => self.product(),
            _ => self.open(),
        }
    }

    fn input(&mut self) {
        let member = self.random.between(1, self.wish.n) as u32;
        let first = self.random.number();
        let same = self.wish.kept.contains(&member) || self.random.chance(30);
        let second = if same { first } else { self.random.number() };
        self.push_input(member, [first, second]);
    }

    fn push_input(&mut self, member: u32, figures: [u32; 2]) {
        let index = member as usize - 1;
        self.draft.first[index].push(figures[0]);
        self.draft.second[index].push(figures[1]);
        self.inputs += 1;
        self.push(Line::Input(member), figures);
    }

    fn sum(&mut self) {
        let (a, b) = (self.reference(), self.reference());
        self.push_sum(a, b);
    }

    fn push_sum(&mut self, a: u32, b: u32) {
        let (x, y) = (self.values[a as usize], self.values[b as usize]);
        self.push(Line::Sum(a, b), [add(x[0], y[0]), add(x[1], y[1])]);
    }

    fn times(&mut self) {
        let (factor, a) = (self.random.number(), self.reference());
        let value = self.values[a as usize].map(|value| multiply(factor, value));
        self.push(Line::Times(factor, a), value);
    }

    fn product(&mut self) {
        let (a, b) = (self.reference(), self.reference());
        let (x, y) = (self.values[a as usize], self.values[b as usize]);
        self.push(Line::Product(a, b), [multiply(x[0], y[0]), multiply(x[1], y[1])]);
    }

    fn open(&mut self) {
        let a = self.reference();
        let value = self.values[a as usize];
        if !self.wish.alike || value[0] == value[1] {
            self.draft.lines.push(Line::Open(a));
        } else {
            self.open_hidden(a, value);
        }
    }

    /// Opens the sum of a value and a new figure that makes up for the difference.
    fn open_hidden(&mut self, a: u32, value: [u32; 2]) {
        let room = self.draft.lines.len() + 3 <= self.wish.lines;
        let dealer = self.free_member().filter(|_| room && self.inputs < self.wish.most_inputs);
        let Some(dealer) = dealer else {
            return self.sum();
        };
        let first = self.random.number();
        let change = subtract(value[0], value[1]);
        self.push_input(dealer, [first, add(first, change)]);
        self.push_sum(a, self.values.len() as u32 - 1);
        self.draft.lines.push(Line::Open(self.values.len() as u32 - 1));
    }

    fn free_member(&mut self) -> Option<u32> {
        let kept = &self.wish.kept;
        let free: Vec<u32> = (1..=self.wish.n as u32).filter(|m| !kept.contains(m)).collect();
        if free.is_empty() { None } else { Some(*self.random.pick(&free)) }
    }

    /// A value, often one of the last.
    fn reference(&mut self) -> u32 {
        let made = self.values.len();
        let back = if self.random.chance(50) { made.min(3) } else { made };
        (made - 1 - self.random.below(back)) as u32
    }

    fn push(&mut self, line: Line, value: [u32; 2]) {
        self.draft.lines.push(line);
        self.values.push(value);
    }
}

/// Words for coins: at least as many as are wanted, some with the top bit, some to be passed over.
pub fn coin_words(random: &mut Random, wanted: usize, more: usize) -> Vec<u32> {
    let passed = *random.pick(&[0, 0, 5, 40]);
    let mut words = Vec::with_capacity(wanted + more);
    for _ in 0..wanted + more {
        while random.chance(passed) {
            words.push(P | top_bit(random));
        }
        words.push(random.number() | top_bit(random));
    }
    words
}

fn top_bit(random: &mut Random) -> u32 {
    if random.chance(50) { 1 << 31 } else { 0 }
}

/// What each member brings to the first run: enough, now and then with something to spare.
pub fn words_of(random: &mut Random, draft: &Draft) -> Vec<Words> {
    let spare = *random.pick(&[0, 0, 1, 5]);
    let mut members = Vec::with_capacity(draft.n);
    for (figures, wanted) in draft.first.iter().zip(draft.coins_wanted()) {
        let mut figures = figures.clone();
        (0..random.between(0, spare)).for_each(|_| figures.push(random.number()));
        let more = random.between(0, spare);
        members.push(Words { figures, coins: coin_words(random, wanted, more) });
    }
    members
}
