//! Sheets, and the lowest number of all that is wrong with one.

use super::bytes::word;
use super::field::P;

pub const MOST_MEMBERS: usize = 15;
pub const MOST_LINES: usize = 4_096;
pub const MOST_INPUTS: usize = 1_024;
const HEAD: usize = 5;
const LINE: usize = 9;

#[derive(Clone, Copy, Debug, PartialEq, Eq)]
pub enum Line {
    /// The member, from 1.
    Input(u32),
    Sum(u32, u32),
    /// The factor, then the value.
    Times(u32, u32),
    Product(u32, u32),
    Open(u32),
}

#[derive(Clone, Debug)]
pub struct Sheet {
    pub n: usize,
    pub t: usize,
    pub lines: Vec<Line>,
}

/// The lowest refusal number told so far.
struct Lowest(Option<u8>);

impl Lowest {
    fn tell(&mut self, number: u8, is_wrong: bool) {
        if is_wrong && self.0.is_none_or(|lowest| number < lowest) {
            self.0 = Some(number);
        }
    }
}

impl Sheet {
    pub fn read(bytes: &[u8]) -> Result<Sheet, u8> {
        if bytes.len() < HEAD || bytes[0] != 1 {
            return Err(1);
        }
        let (n, t) = (bytes[1] as usize, bytes[2] as usize);
        let count = bytes[3] as usize * 256 + bytes[4] as usize;
        if bytes.len() != HEAD + count * LINE {
            return Err(1);
        }
        let mut wrong = Lowest(None);
        wrong.tell(2, n == 0 || n > MOST_MEMBERS || 2 * t + 1 > n);
        wrong.tell(2, count == 0 || count > MOST_LINES);
        let lines = read_lines(&bytes[HEAD..], n, &mut wrong)?;
        match wrong.0 {
            Some(number) => Err(number),
            None => Ok(Sheet { n, t, lines }),
        }
    }
}

fn read_lines(bytes: &[u8], n: usize, wrong: &mut Lowest) -> Result<Vec<Line>, u8> {
    let mut lines = Vec::with_capacity(bytes.len() / LINE);
    let (mut made, mut inputs) = (0, 0);
    for nine in bytes.chunks_exact(LINE) {
        let (a, b) = (word(&nine[1..5]), word(&nine[5..9]));
        let line = read_line(nine[0], a, b).ok_or(1)?;
        wrong.tell(3, a >= P || b >= P);
        match line {
            Line::Input(member) => {
                wrong.tell(3, member == 0 || member as usize > n);
                inputs += 1;
            }
            Line::Sum(a, b) | Line::Product(a, b) => wrong.tell(4, a >= made || b >= made),
            Line::Times(_, a) | Line::Open(a) => wrong.tell(4, a >= made),
        }
        if !matches!(line, Line::Open(_)) {
            made += 1;
        }
        lines.push(line);
    }
    wrong.tell(12, inputs > MOST_INPUTS);
    Ok(lines)
}

/// None if the kind is unknown, or the second number is not 0 where there should be none.
fn read_line(kind: u8, a: u32, b: u32) -> Option<Line> {
    match kind {
        1 if b == 0 => Some(Line::Input(a)),
        2 => Some(Line::Sum(a, b)),
        3 => Some(Line::Times(a, b)),
        4 => Some(Line::Product(a, b)),
        5 if b == 0 => Some(Line::Open(a)),
        _ => None,
    }
}
