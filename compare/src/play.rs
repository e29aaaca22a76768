//! Plays seeded random cases against the built programs.

pub mod case;
pub mod check;
pub mod damage;
pub mod draft;
pub mod encode;
pub mod launch;
pub mod random;
pub mod reached;
pub mod tally;
