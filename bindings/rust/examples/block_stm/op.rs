//! Transactions are lists of these: small programs whose keys, branches and values come from what
//! they read.

use proved_mvhashmap::{DeltaOp, SignedU128};

/// A key or a tag: one of a row, chosen by the digest of what was read so far.
#[derive(Debug, Clone, Copy)]
pub struct Pick {
    pub first: u32,
    pub among: u32,
    pub shift: u32,
}

#[derive(Debug, Clone, Copy)]
pub enum Condition {
    Odd,
    Failed,
    NotFailed,
}

#[derive(Debug, Clone, Copy)]
pub enum Op {
    Read(Pick),
    ReadTag(Pick, Pick),
    ReadSize(Pick),
    Write(Pick),
    Delete(Pick),
    /// A number written over an aggregator, at most the given one.
    Reset(Pick, u128),
    AddDelta(Pick, Change),
    /// Reads a tag, and creates, modifies or deletes it, as what is there allows.
    SetTag(Pick, Pick),
    /// Reads a group's size, and makes an update of no tag if nothing else is updated there.
    TouchGroup(Pick),
    SkipIf(Condition, usize),
}

/// A delta that is still to take its size from what was read.
#[derive(Debug, Clone, Copy)]
pub struct Change {
    pub limit: u128,
    pub most: u128,
    pub minus: bool,
    /// How much further than its end it went on the way, each way.
    pub reach: u128,
}

impl Change {
    pub fn delta(&self, wide: u128) -> DeltaOp {
        let size = bounded(wide, self.most);
        let (up, down) = if self.minus { (0, size) } else { (size, 0) };
        let far = |size: u128| size.saturating_add(self.reach).min(self.limit);
        DeltaOp {
            max_value: self.limit,
            max_achieved_positive_delta: far(up),
            min_achieved_negative_delta: far(down),
            update: match down {
                0 => SignedU128::Positive(up),
                _ => SignedU128::Negative(down),
            },
        }
    }
}

/// A number of any size, brought to at most the given one.
pub fn bounded(wide: u128, most: u128) -> u128 {
    most.checked_add(1).map_or(wide, |bound| wide % bound)
}
