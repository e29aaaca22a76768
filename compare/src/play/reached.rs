//! What a case reached: its files are read again, and what is worth counting in them is counted.

use std::ffi::OsString;
use std::io;

use super::tally::Tally;
use crate::model::answer::{Answer, Kind, Place, Program};
use crate::model::inputs::{Hand, read_figures, read_inputs};
use crate::model::sheet::{Line, Sheet};
use crate::model::supply::{Counts, Short, count, judge};
use crate::model::watched;

/// The good files of a case, and the words that name members.
pub struct Files {
    pub sheet: Sheet,
    pub first: Vec<Hand>,
    /// The second run's figures; for circle there is none.
    pub second: Option<Vec<Vec<u32>>>,
    /// Indices from 0, in order; none if one is outside.
    pub watched: Vec<usize>,
    words: usize,
    passed_over: usize,
}

impl Files {
    pub fn read(program: Program, arguments: &[OsString]) -> io::Result<Files> {
        let sheet = Sheet::read(&std::fs::read(&arguments[0])?).map_err(unlikely)?;
        let inputs = std::fs::read(&arguments[1])?;
        let first = read_inputs(&inputs, sheet.n).map_err(unlikely)?;
        let second = match program {
            Program::Circle => None,
            Program::Pair => {
                Some(read_figures(&std::fs::read(&arguments[2])?, sheet.n).map_err(unlikely)?)
            }
        };
        let numbers = watched::read(&arguments[3..]).unwrap_or_default();
        let watched = watched::indices(&numbers, sheet.n).unwrap_or_default();
        let kept: usize = first.iter().map(|hand| hand.figures.len() + hand.coins.len()).sum();
        let passed_over = inputs.len() / 4 - 2 * sheet.n - kept;
        Ok(Files { sheet, first, second, watched, words: arguments.len() - 3, passed_over })
    }

    /// How many figures the lines take of a member.
    fn taken(&self, index: usize) -> usize {
        let own =
            |line: &&Line| matches!(line, Line::Input(member) if *member as usize == index + 1);
        self.sheet.lines.iter().filter(own).count()
    }

    /// How many watched members have different figures, of those that are taken or of the others.
    fn differing(&self, of_taken: bool) -> usize {
        let second = self.second.as_deref().unwrap_or_default();
        let differ = |&index: &usize| {
            let (taken, first) = (self.taken(index), &self.first[index].figures);
            let part = |list: &[u32]| match of_taken {
                true => list[..taken].to_vec(),
                false => list[taken..].to_vec(),
            };
            part(first) != part(&second[index])
        };
        self.watched.iter().filter(|index| differ(index)).count()
    }

    fn short(&self, figures: &[Counts]) -> Option<Short> {
        judge(&self.sheet, figures, count(self.first.iter().map(|hand| &hand.coins))).err()
    }

    /// The figures of each run.
    fn figures(&self) -> Vec<Counts> {
        let first = count(self.first.iter().map(|hand| &hand.figures));
        [first].into_iter().chain(self.second.as_ref().map(|lists| count(lists.iter()))).collect()
    }
}

pub fn count_case(
    program: Program,
    arguments: &[OsString],
    answer: &Answer,
    tally: &mut Tally,
) -> io::Result<()> {
    tally.answer(program, answer);
    let names: Vec<&str> = match answer {
        Answer::Refused(_, Place::Run) => short_names(&Files::read(program, arguments)?),
        Answer::Text(kind, text) => {
            let files = Files::read(program, arguments)?;
            if matches!(kind, Kind::Opened | Kind::OpenedAndSeen | Kind::Coins) {
                tally.played(program, &files.sheet, files.watched.len(), files.passed_over);
            }
            text_names(*kind, text, &files)
        }
        _ => Vec::new(),
    };
    names.iter().for_each(|name| tally.count(&format!("{}: {name}", program.name()), 1));
    Ok(())
}

/// What ran out where, and in which run.
fn short_names(files: &Files) -> Vec<&'static str> {
    let figures = files.figures();
    let Some(short) = files.short(&figures) else {
        return Vec::new();
    };
    let mut names = Vec::new();
    if short.number == 11 {
        names.push(match files.sheet.lines[short.line] {
            Line::Input(_) => "11 at an input line",
            _ => "11 at a product line",
        });
    } else {
        let own: Vec<bool> =
            figures.iter().map(|&run| files.short(&[run]) == Some(short)).collect();
        names.extend(match own[..] {
            [true, false] => Some("10 by the first run alone"),
            [false, true] => Some("10 by the second run alone"),
            [true, true] => Some("10 by both runs"),
            _ => None,
        });
        if files.short(&[]) == Some(Short { line: short.line, number: 11 }) {
            names.push("10 where coins run out too");
        }
    }
    names
}

fn text_names(kind: Kind, text: &[u8], files: &Files) -> Vec<&'static str> {
    let is_short = || files.short(&files.figures()).is_some();
    let twice = files.words > files.watched.len();
    let found = match kind {
        Kind::Opened => vec![],
        Kind::OpenedAndSeen => vec![(twice, "members named twice")],
        Kind::NoPairingTooMany | Kind::NoPairingOutside => {
            vec![(is_short(), "no pairing before 10 or 11")]
        }
        Kind::OpenedDiffers => vec![
            (!text.starts_with(b"opened 0 "), "opened differs, not the first"),
            (files.differing(true) > 0, "opened differs before a figure"),
        ],
        Kind::FigureDiffers => vec![
            (!text.starts_with(b"figure 0 "), "figure differs, not the member's first"),
            (files.differing(true) > 1, "figure differs, of several members"),
        ],
        Kind::Coins => vec![
            (twice, "coins, members named twice"),
            (files.words > files.sheet.t, "coins, more than t words"),
            (files.differing(false) > 0, "coins, other figures that are not taken"),
        ],
    };
    found.into_iter().filter(|(is_so, _)| *is_so).map(|(_, name)| name).collect()
}

fn unlikely(number: u8) -> io::Error {
    io::Error::other(format!("refused with {number} the second time"))
}
