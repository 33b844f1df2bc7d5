//! What the old product does not look at: 2, 3 and 4 of 01's refusals.

use request::{
    value::{DELETION, MODIFICATION},
    Delta, Kind, Request, Value,
};

const LONGEST: u32 = 1_048_576;

/// The request in these words, or the lowest of 2, 3 and 4 that applies.
pub fn checked(words: &[u32]) -> Result<Request, u32> {
    let request = Request::decode(words).ok_or(2u32)?;
    if !fields_keep_their_rules(&request) {
        return Err(3);
    }
    match request.kind().index(words) {
        Some(index) if index > last_index(request.kind()) => Err(4),
        _ => Ok(request),
    }
}

/// Difference: the Rust adds 1 to any index it needs, and overflows. "Indexes up to 4,294,967,294 are served; materialising adds twice, so there 4,294,967,293
/// is the last."
fn last_index(kind: Kind) -> u32 {
    match kind {
        Kind::Materialise => u32::MAX - 2,
        _ => u32::MAX - 1,
    }
}

fn fields_keep_their_rules(request: &Request) -> bool {
    match request {
        Request::Base { value, .. } => value_rule(value),
        Request::Write { value, .. } => exchanged_rule(value),
        Request::Delta { delta, .. } => delta_rule(delta),
        Request::GroupBase { values, .. } => {
            values.iter().all(|(_, value)| value_rule(value) && !value.is_exchanged())
        }
        // Difference: the Rust lets a base become a deletion here.
        Request::Exchange { tag, value, .. } => {
            tag_rule(*tag) && exchanged_rule(value) && value.kind() != DELETION
        }
        Request::GroupWrite { values, .. } => values.iter().all(|(_, value)| exchanged_rule(value)),
        Request::GroupFetch { tag, .. } => tag_rule(*tag),
        Request::LastCommitted { .. } | Request::At { .. } => true,
    }
}

fn tag_rule(tag: u32) -> bool {
    tag <= 63
}

fn exchanged_rule(value: &Value) -> bool {
    value_rule(value) && value.is_exchanged()
}

/// "Only a non-deletion of length 16 has a number; otherwise its words are 0. A deletion has
/// length 0. Raw has layout 0."
fn value_rule(value: &Value) -> bool {
    let kind = match value.kind() {
        DELETION => value.length() == 0,
        kind => kind <= MODIFICATION,
    };
    let number = value.number == 0 || (value.kind() != DELETION && value.length() == 16);
    let layout = value.layout == 0 || value.is_exchanged();
    kind && value.length() <= LONGEST && number && layout
}

/// "H ≤ M, L ≤ M, −L ≤ u ≤ H", the sign 0 or 1, and "minus zero is bad".
fn delta_rule(delta: &Delta) -> bool {
    let update = match delta.sign {
        0 => delta.update <= delta.highest,
        1 => delta.update != 0 && delta.update <= delta.lowest,
        _ => false,
    };
    delta.highest <= delta.limit && delta.lowest <= delta.limit && update
}
