//! Whether figures and coins suffice for a sheet, judged before anything is played.

use super::sheet::{Line, MOST_MEMBERS, Sheet};

/// How many of something each member has.
pub type Counts = [usize; MOST_MEMBERS];

pub fn count<'a>(lists: impl Iterator<Item = &'a Vec<u32>>) -> Counts {
    let mut counts = [0; MOST_MEMBERS];
    for (count, list) in counts.iter_mut().zip(lists) {
        *count = list.len();
    }
    counts
}

/// The first line at which something runs out, and the number of that.
#[derive(Clone, Copy, Debug, PartialEq, Eq)]
pub struct Short {
    pub line: usize,
    pub number: u8,
}

/// Goes through the lines, with the figures of each run, and the coins, of which all runs draw equally many.
pub fn judge(sheet: &Sheet, figures: &[Counts], mut coins: Counts) -> Result<(), Short> {
    let mut figures = figures.to_vec();
    for (number, &line) in sheet.lines.iter().enumerate() {
        spend_line(sheet, line, &mut figures, &mut coins)
            .map_err(|what| Short { line: number, number: what })?;
    }
    Ok(())
}

fn spend_line(
    sheet: &Sheet,
    line: Line,
    figures: &mut [Counts],
    coins: &mut Counts,
) -> Result<(), u8> {
    match line {
        Line::Input(member) => {
            let dealer = member as usize - 1;
            figures.iter_mut().try_for_each(|counts| spend(&mut counts[dealer], 1, 10))?;
            spend(&mut coins[dealer], sheet.t, 11)
        }
        Line::Product(..) => {
            coins[..sheet.n].iter_mut().try_for_each(|left| spend(left, sheet.t, 11))
        }
        Line::Sum(..) | Line::Times(..) | Line::Open(_) => Ok(()),
    }
}

fn spend(left: &mut usize, wanted: usize, number: u8) -> Result<(), u8> {
    *left = left.checked_sub(wanted).ok_or(number)?;
    Ok(())
}
