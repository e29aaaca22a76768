//! What a program answers.

use std::ffi::OsString;

#[derive(Clone, Copy, Debug, PartialEq, Eq)]
pub enum Program {
    Circle,
    Pair,
}

impl Program {
    pub fn name(self) -> &'static str {
        match self {
            Program::Circle => "circle",
            Program::Pair => "pair",
        }
    }

    pub fn usage(self) -> &'static str {
        match self {
            Program::Circle => "usage: circle SHEET INPUTS ORDER [WATCHED ..]",
            Program::Pair => "usage: pair SHEET FIRST SECOND [WATCHED ..]",
        }
    }
}

/// Where something is wrong.
#[derive(Clone, Copy, Debug, PartialEq, Eq)]
pub enum Place {
    Sheet,
    Inputs,
    /// The order of delivery, or the second run's figures.
    Third,
    Watched,
    Run,
}

#[derive(Clone, Copy, Debug, PartialEq, Eq)]
pub enum Kind {
    Opened,
    OpenedAndSeen,
    NoPairingTooMany,
    NoPairingOutside,
    OpenedDiffers,
    FigureDiffers,
    Coins,
}

#[derive(Debug)]
pub enum Answer {
    Text(Kind, Vec<u8>),
    Refused(u8, Place),
    TooFew,
    /// A watched member that is no decimal number.
    NoNumber,
    /// A word that is not UTF-8.
    NoText,
    Help,
    Unreadable(OsString),
}

/// Appends decimal numbers, one to a line.
pub fn write_numbers(numbers: &[u32], text: &mut Vec<u8>) {
    text.reserve(numbers.len() * 11);
    for &number in numbers {
        let mut line = [b'\n'; 11];
        let (mut rest, mut start) = (number, 10);
        loop {
            start -= 1;
            line[start] = b'0' + (rest % 10) as u8;
            rest /= 10;
            if rest == 0 {
                break;
            }
        }
        text.extend_from_slice(&line[start..]);
    }
}

/// The cause of a refusal in words.
pub fn cause(number: u8) -> &'static str {
    match number {
        1 => "unknown kind, bad length, bad count or a second number that isn't 0",
        2 => "bad n, t or number of lines",
        3 => "a number too large, or a line's member not in the circle",
        4 => "a value that is not made yet",
        5 => "a watched member that is not in the circle",
        10 => "figures are used up",
        11 => "coins are used up",
        12 => "more than 1024 input lines",
        _ => "unknown",
    }
}
