//! How often each answer was reached.

use std::collections::BTreeMap;

use super::case::sizes;
use crate::model::answer::{Answer, Kind, Place, Program};
use crate::model::sheet::{Line, MOST_MEMBERS, Sheet};

#[derive(Default)]
pub struct Tally {
    answers: BTreeMap<String, u64>,
    /// By program, number of members and t, of cases that were played to the end.
    sizes: BTreeMap<(&'static str, usize, usize), u64>,
    /// By program and number of watched members.
    watched: BTreeMap<(&'static str, usize), u64>,
}

const CIRCLE: [&str; 22] = [
    "circle: 1 of the sheet",
    "circle: 2 of the sheet",
    "circle: 3 of the sheet",
    "circle: 4 of the sheet",
    "circle: 12 of the sheet",
    "circle: 1 of the inputs",
    "circle: 3 of the inputs",
    "circle: 1 of the order",
    "circle: 5 of the watched",
    "circle: 10 of the run",
    "circle: 10 where coins run out too",
    "circle: 11 of the run",
    "circle: 11 at an input line",
    "circle: 11 at a product line",
    "circle: opened",
    "circle: opened and seen",
    "circle: members named twice",
    "circle: too few arguments",
    "circle: no decimal number",
    "circle: no text",
    "circle: file that cannot be read",
    "circle: help",
];

const PAIR: [&str; 38] = [
    "pair: 1 of the sheet",
    "pair: 2 of the sheet",
    "pair: 3 of the sheet",
    "pair: 4 of the sheet",
    "pair: 12 of the sheet",
    "pair: 1 of the first run's inputs",
    "pair: 3 of the first run's inputs",
    "pair: 1 of the second run's figures",
    "pair: 3 of the second run's figures",
    "pair: no pairing, too many",
    "pair: no pairing, one outside",
    "pair: no pairing before 10 or 11",
    "pair: 10 of the run",
    "pair: 10 by the first run alone",
    "pair: 10 by the second run alone",
    "pair: 10 by both runs",
    "pair: 10 where coins run out too",
    "pair: 11 of the run",
    "pair: 11 at an input line",
    "pair: 11 at a product line",
    "pair: opened differs",
    "pair: opened differs, not the first",
    "pair: opened differs before a figure",
    "pair: figure differs",
    "pair: figure differs, not the member's first",
    "pair: figure differs, of several members",
    "pair: coins",
    "pair: coins, members named twice",
    "pair: coins, more than t words",
    "pair: coins, other figures that are not taken",
    "pair: coins that differ from the first run's",
    "pair: there and back",
    "pair: seen alike",
    "pair: too few arguments",
    "pair: no decimal number",
    "pair: no text",
    "pair: file that cannot be read",
    "pair: help",
];

const MAKING: [&str; 7] = [
    "played: input lines",
    "played: sum lines",
    "played: times lines",
    "played: product lines",
    "played: open lines",
    "played: products of products",
    "played: coin words passed over",
];

impl Tally {
    pub fn answer(&mut self, program: Program, answer: &Answer) {
        self.count(&format!("{}: {}", program.name(), name(program, answer)), 1);
    }

    pub fn count(&mut self, name: &str, times: u64) {
        *self.answers.entry(name.to_string()).or_default() += times;
    }

    /// Counts what a case that was played to the end is made of.
    pub fn played(&mut self, program: Program, sheet: &Sheet, watched: usize, passed_over: usize) {
        *self.sizes.entry((program.name(), sheet.n, sheet.t)).or_default() += 1;
        *self.watched.entry((program.name(), watched)).or_default() += 1;
        self.count("played: coin words passed over", passed_over as u64);
        sheet.lines.iter().for_each(|line| self.count(line_name(line), 1));
        self.count("played: products of products", products_of_products(sheet));
    }

    /// Prints all, and returns the names of what was never reached.
    pub fn report(&self, with_pair: bool) -> Vec<String> {
        let pair: &[&str] = if with_pair { &PAIR } else { &[] };
        let mut missed = Vec::new();
        for &name in CIRCLE.iter().chain(pair).chain(&MAKING) {
            let times = self.answers.get(name).copied().unwrap_or(0);
            println!("{times:>9}  {name}");
            if times == 0 {
                missed.push(name.to_string());
            }
        }
        for (name, times) in &self.answers {
            if !CIRCLE.iter().chain(&PAIR).chain(&MAKING).any(|known| known == name) {
                println!("{times:>9}  {name}");
            }
        }
        self.report_sizes(Program::Circle, MOST_MEMBERS, &mut missed);
        if with_pair {
            self.report_sizes(Program::Pair, MOST_MEMBERS / 2, &mut missed);
        }
        missed
    }

    /// Each n with each t, and each number of watched members up to the most, that a program was played with.
    fn report_sizes(&self, program: Program, most_watched: usize, missed: &mut Vec<String>) {
        let name = program.name();
        let mut times = Vec::new();
        for (n, t) in sizes() {
            times.push(self.sizes.get(&(name, n, t)).copied().unwrap_or(0));
            if times.last() == Some(&0) {
                missed.push(format!("{name}: n = {n}, t = {t}"));
            }
        }
        let least = times.iter().min().unwrap_or(&0);
        println!("{:>9}  {name}: pairs of n and t, each played {least} times or more", times.len());
        times.clear();
        for size in 0..=most_watched {
            times.push(self.watched.get(&(name, size)).copied().unwrap_or(0));
            if times.last() == Some(&0) {
                missed.push(format!("{name}: {size} watched"));
            }
        }
        let least = times.iter().min().unwrap_or(&0);
        println!(
            "{:>9}  {name}: numbers of watched members, each {least} times or more",
            times.len()
        );
    }
}

fn name(program: Program, answer: &Answer) -> String {
    match answer {
        Answer::Text(kind, _) => kind_name(*kind).to_string(),
        Answer::Refused(number, place) => {
            format!("{number} of the {}", place_name(program, *place))
        }
        Answer::TooFew => "too few arguments".to_string(),
        Answer::NoNumber => "no decimal number".to_string(),
        Answer::NoText => "no text".to_string(),
        Answer::Help => "help".to_string(),
        Answer::Unreadable(_) => "file that cannot be read".to_string(),
    }
}

fn kind_name(kind: Kind) -> &'static str {
    match kind {
        Kind::Opened => "opened",
        Kind::OpenedAndSeen => "opened and seen",
        Kind::NoPairingTooMany => "no pairing, too many",
        Kind::NoPairingOutside => "no pairing, one outside",
        Kind::OpenedDiffers => "opened differs",
        Kind::FigureDiffers => "figure differs",
        Kind::Coins => "coins",
    }
}

fn place_name(program: Program, place: Place) -> &'static str {
    match (place, program) {
        (Place::Sheet, _) => "sheet",
        (Place::Inputs, Program::Circle) => "inputs",
        (Place::Inputs, Program::Pair) => "first run's inputs",
        (Place::Third, Program::Circle) => "order",
        (Place::Third, Program::Pair) => "second run's figures",
        (Place::Watched, _) => "watched",
        (Place::Run, _) => "run",
    }
}

fn line_name(line: &Line) -> &'static str {
    match line {
        Line::Input(_) => "played: input lines",
        Line::Sum(..) => "played: sum lines",
        Line::Times(..) => "played: times lines",
        Line::Product(..) => "played: product lines",
        Line::Open(_) => "played: open lines",
    }
}

fn products_of_products(sheet: &Sheet) -> u64 {
    let values: Vec<&Line> = sheet.lines.iter().filter(|l| !matches!(l, Line::Open(_))).collect();
    let is_product = |number: u32| matches!(values[number as usize], Line::Product(..));
    let both =
        |line: &&&Line| matches!(line, Line::Product(a, b) if is_product(*a) && is_product(*b));
    values.iter().filter(both).count() as u64
}
