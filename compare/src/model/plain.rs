//! The plain meaning of a sheet: what is opened when one knows all figures.

use super::field::{add, multiply};
use super::sheet::{Line, MOST_MEMBERS, Sheet};

/// Figures must suffice.
pub fn opened<'a>(sheet: &Sheet, figures: impl Iterator<Item = &'a Vec<u32>>) -> Vec<u32> {
    let lists: Vec<&Vec<u32>> = figures.collect();
    let mut taken = [0; MOST_MEMBERS];
    let mut values: Vec<u32> = Vec::with_capacity(sheet.lines.len());
    let mut opened = Vec::new();
    for line in &sheet.lines {
        let value = |number: u32| values[number as usize];
        let made = match *line {
            Line::Input(member) => {
                let index = member as usize - 1;
                taken[index] += 1;
                lists[index][taken[index] - 1]
            }
            Line::Sum(a, b) => add(value(a), value(b)),
            Line::Times(factor, a) => multiply(factor, value(a)),
            Line::Product(a, b) => multiply(value(a), value(b)),
            Line::Open(a) => {
                opened.push(value(a));
                continue;
            }
        };
        values.push(made);
    }
    opened
}
