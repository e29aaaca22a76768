//! Writing files.

use crate::model::sheet::Line;

/// What one member brings, with coins as the words of the file.
#[derive(Clone, Debug, Default)]
pub struct Words {
    pub figures: Vec<u32>,
    pub coins: Vec<u32>,
}

pub fn sheet(n: usize, t: usize, lines: &[Line]) -> Vec<u8> {
    let mut bytes = vec![1, n as u8, t as u8];
    bytes.extend((lines.len() as u16).to_be_bytes());
    for &line in lines {
        let (kind, a, b) = match line {
            Line::Input(member) => (1, member, 0),
            Line::Sum(a, b) => (2, a, b),
            Line::Times(factor, a) => (3, factor, a),
            Line::Product(a, b) => (4, a, b),
            Line::Open(a) => (5, a, 0),
        };
        bytes.push(kind);
        bytes.extend(a.to_be_bytes());
        bytes.extend(b.to_be_bytes());
    }
    bytes
}

pub fn inputs(members: &[Words]) -> Vec<u8> {
    let mut bytes = Vec::new();
    for member in members {
        push_counted(&member.figures, &mut bytes);
        push_counted(&member.coins, &mut bytes);
    }
    bytes
}

pub fn figures(lists: &[Vec<u32>]) -> Vec<u8> {
    let mut bytes = Vec::new();
    lists.iter().for_each(|list| push_counted(list, &mut bytes));
    bytes
}

fn push_counted(words: &[u32], bytes: &mut Vec<u8>) {
    bytes.extend((words.len() as u32).to_be_bytes());
    words.iter().for_each(|word| bytes.extend(word.to_be_bytes()));
}
