//! What can go wrong in a run.

use proved_mvhashmap::Refusal;
use std::fmt;

#[derive(Debug, Clone, PartialEq, Eq)]
pub enum Failure {
    /// The store refused what a correct executor may ask.
    Refused { request: String, refusal: Refusal },
    /// The store answered what it cannot answer here.
    Unexpected { request: String, answer: String },
    /// The parallel run came to something else than the sequential one.
    Differs { place: String, sequential: String, parallel: String },
    /// Nobody has work and the block is not done, or the work does not end.
    Stalled(String),
}

/// Names the request of a refusal.
pub fn refused(request: impl FnOnce() -> String) -> impl FnOnce(Refusal) -> Failure {
    |refusal| Failure::Refused { request: request(), refusal }
}

impl fmt::Display for Failure {
    fn fmt(&self, f: &mut fmt::Formatter<'_>) -> fmt::Result {
        match self {
            Failure::Refused { request, refusal } => {
                write!(f, "{request} was refused by {}: {refusal}", refusal.number())?;
                if *refusal == Refusal::UnitsExhausted {
                    write!(f, "\nGive it more, with --data-units or --group-units.")?;
                }
                Ok(())
            }
            Failure::Unexpected { request, answer } => write!(f, "{request} answered {answer}"),
            Failure::Differs { place, sequential, parallel } => {
                write!(f, "{place} differs\n  sequential: {sequential}\n  parallel:   {parallel}")
            }
            Failure::Stalled(how) => write!(f, "the block does not end: {how}"),
        }
    }
}
