//! Which refusal of 01 a panic or an error of the old product is, told by its message.

use request::Kind::{self, *};

/// Kind of ticket, a part of the message that no other failure of that kind has, and 01's number.
pub const FAILURES: [(Kind, &str, u32); 25] = [
    (Base, "assertion failed: v.bytes()", 8),
    (Base, "assertion `left == right` failed", 8),
    (Write, "assertion failed: prev_entry.map_or", 7),
    (Estimate, "Path must exist", 6),
    (Estimate, "must exist to mark estimate", 6),
    (Remove, "Path must exist", 6),
    (Remove, "must exist to be deleted", 6),
    (Fetch, "Unexpected layout", 9),
    (Fetch, "must deserialize to u128", 10),
    (Materialise, "Unexpected layout", 9),
    (Materialise, "must deserialize to u128", 10),
    (Materialise, "must exist to commit delta", 6),
    (Materialise, "Must resolve delta", 13),
    // An absent key and an empty key answer alike, and on an empty one nothing resolves.
    (Materialise, "Path must exist", 13),
    (GroupBase, "Reading twice from storage", 8),
    (GroupBase, "assertion `left == right` failed", 8),
    (GroupBase, "Marking storage version as committed", 11),
    (Exchange, "Base version must exist", 6),
    (Exchange, "Tag must exist in committed", 12),
    (Exchange, "does not match any of the given patterns", 12),
    (GroupEstimate, "Path must exist", 6),
    (GroupEstimate, "must exist at the index to mark estimate", 6),
    (Finalise, "Path must exist", 6),
    (Finalise, "must exist at the index to commit", 6),
    (Finalise, "not consistent with previous value", 11),
];

pub fn number(kind: Kind, message: &str) -> u32 {
    let found = FAILURES.iter().find(|(of, part, _)| *of == kind && message.contains(part));
    match found {
        Some((_, _, number)) => *number,
        None => panic!("01 has no number for this failure of {kind:?}: {message}"),
    }
}
