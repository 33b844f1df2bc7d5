//! The old product behind the command line of 01's history program.

pub mod checks;
mod convert;
pub mod differences;
pub mod maps;
pub mod oracle;
pub mod panics;
mod plain_panics;
pub mod program;
pub mod refusals;
mod slots;

pub use maps::Maps;
pub use oracle::Oracle;
