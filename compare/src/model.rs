//! An independent model of the programs: it reads the same files and gives the same answers.

pub mod answer;
pub mod bytes;
pub mod dealing;
pub mod field;
pub mod inputs;
pub mod pairing;
pub mod plain;
pub mod programs;
pub mod run;
pub mod sheet;
pub mod supply;
pub mod watched;

#[cfg(test)]
mod tests;
