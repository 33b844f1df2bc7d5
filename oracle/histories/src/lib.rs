//! Histories, generated and run on the oracle and on the history program.

pub mod arguments;
pub mod compare;
pub mod comparison;
pub mod damage;
pub mod generate;
pub mod history;
pub mod pairs;
pub mod profile;
pub mod profiles;
pub mod program;
pub mod rng;
pub mod sample;
pub mod search;
pub mod short;
pub mod shrink;
pub mod sides;
pub mod tally;
