//! 01's answers.

use crate::{delta::Delta, head, number_words, value, value::Tagged, Value};

#[derive(Clone, Debug, PartialEq, Eq)]
pub enum Response {
    Done,
    WroteOutside,
    Versioned { index: u32, incarnation: u32, value: Value },
    VersionedAtBase(Value),
    Resolved(u128),
    Unresolved(Delta),
    Uninitialized,
    TagNotFound,
    Dependency(u32),
    DeltaApplicationFailure,
    Size { members: u32, sum: u32 },
    Committed(Tagged),
}

/// The answer kinds by number, as they are called in text.
pub const NAMES: [&str; 12] = [
    "done",
    "Versioned",
    "Resolved",
    "Unresolved",
    "Uninitialized",
    "TagNotFound",
    "Dependency",
    "DeltaApplicationFailure",
    "size",
    "committed",
    "done, wrote outside",
    "Versioned at the base",
];

impl Response {
    pub fn words(&self) -> Vec<u32> {
        let (number, fields) = self.number_and_fields();
        let mut words = vec![head(number, fields.len())];
        words.extend(fields);
        words
    }

    fn number_and_fields(&self) -> (u32, Vec<u32>) {
        match self {
            Response::Done => (0, vec![]),
            Response::Versioned { index, incarnation, value } => {
                (1, [&[*index, *incarnation], &value.words()[..]].concat())
            }
            Response::Resolved(number) => (2, number_words(*number).to_vec()),
            Response::Unresolved(delta) => (3, delta.words()),
            Response::Uninitialized => (4, vec![]),
            Response::TagNotFound => (5, vec![]),
            Response::Dependency(index) => (6, vec![*index]),
            Response::DeltaApplicationFailure => (7, vec![]),
            Response::Size { members, sum } => (8, vec![*members, *sum]),
            Response::Committed(values) => (9, value::set_words(values)),
            Response::WroteOutside => (10, vec![]),
            Response::VersionedAtBase(value) => (11, value.words().to_vec()),
        }
    }
}
