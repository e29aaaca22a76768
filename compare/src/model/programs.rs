//! The programs, from their arguments to their answer.

use std::ffi::OsString;

use super::answer::{Answer, Kind, Place, Program, write_numbers};
use super::inputs::{Hand, judge_order, read_figures, read_inputs};
use super::pairing::{Pairing, pair};
use super::run::run;
use super::sheet::Sheet;
use super::supply::{count, judge};
use super::watched;

/// What the program answers to these arguments.
pub fn answer(program: Program, arguments: &[OsString]) -> Answer {
    if arguments.len() == 1 && arguments[0] == "--help" {
        return Answer::Help;
    }
    if arguments.len() < 3 {
        return Answer::TooFew;
    }
    let Some(numbers) = watched::read(&arguments[3..]) else {
        return Answer::NoNumber;
    };
    if arguments.iter().any(|word| word.to_str().is_none()) {
        return Answer::NoText;
    }
    let result = match program {
        Program::Circle => circle(arguments, &numbers),
        Program::Pair => pair_runs(arguments, &numbers),
    };
    result.unwrap_or_else(|wrong| wrong)
}

fn circle(names: &[OsString], watched: &[usize]) -> Result<Answer, Answer> {
    let (sheet, hands) = read_run(names)?;
    judge_order(&read(&names[2])?).map_err(at(Place::Third))?;
    let watched = watched::indices(watched, sheet.n).ok_or(Answer::Refused(5, Place::Watched))?;
    let figures = count(hands.iter().map(|hand| &hand.figures));
    let coins = count(hands.iter().map(|hand| &hand.coins));
    judge(&sheet, &[figures], coins).map_err(|short| at(Place::Run)(short.number))?;
    let outcome = run(&sheet, &hands, &watched);
    let mut text = Vec::new();
    write_numbers(&outcome.opened, &mut text);
    if watched.is_empty() {
        return Ok(Answer::Text(Kind::Opened, text));
    }
    text.push(b'\n');
    write_numbers(&outcome.seen, &mut text);
    Ok(Answer::Text(Kind::OpenedAndSeen, text))
}

fn pair_runs(names: &[OsString], watched: &[usize]) -> Result<Answer, Answer> {
    let (sheet, first) = read_run(names)?;
    let second = read_figures(&read(&names[2])?, sheet.n).map_err(at(Place::Third))?;
    let Some(indices) = watched::indices(watched, sheet.n) else {
        return Ok(Answer::Text(Kind::NoPairingOutside, b"no pairing\n".to_vec()));
    };
    if indices.len() > sheet.t {
        return Ok(Answer::Text(Kind::NoPairingTooMany, b"no pairing\n".to_vec()));
    }
    let figures = [count(first.iter().map(|hand| &hand.figures)), count(second.iter())];
    let coins = count(first.iter().map(|hand| &hand.coins));
    judge(&sheet, &figures, coins).map_err(|short| at(Place::Run)(short.number))?;
    Ok(tell_pairing(pair(&sheet, &first, &second, &indices)))
}

fn tell_pairing(pairing: Pairing) -> Answer {
    match pairing {
        Pairing::OpenedDiffers(number) => {
            let text = format!("opened {number} differs\n");
            Answer::Text(Kind::OpenedDiffers, text.into_bytes())
        }
        Pairing::FigureDiffers(number, member) => {
            let text = format!("figure {number} of member {member} differs\n");
            Answer::Text(Kind::FigureDiffers, text.into_bytes())
        }
        Pairing::Coins(lists) => {
            let mut text = Vec::new();
            lists.iter().for_each(|coins| write_numbers(coins, &mut text));
            Answer::Text(Kind::Coins, text)
        }
    }
}

/// The first two files: a sheet and the inputs of its circle.
fn read_run(names: &[OsString]) -> Result<(Sheet, Vec<Hand>), Answer> {
    let sheet = Sheet::read(&read(&names[0])?).map_err(at(Place::Sheet))?;
    let hands = read_inputs(&read(&names[1])?, sheet.n).map_err(at(Place::Inputs))?;
    Ok((sheet, hands))
}

fn read(name: &OsString) -> Result<Vec<u8>, Answer> {
    std::fs::read(name).map_err(|_| Answer::Unreadable(name.clone()))
}

fn at(place: Place) -> impl Fn(u8) -> Answer {
    move |number| Answer::Refused(number, place)
}
