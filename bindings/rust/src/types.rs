//! Names and results of the store, as in the old `types.rs`.

use crate::{DeltaOp, Refusal, ValueWithLayout};
use std::num::NonZeroU32;

/// The name of a place in a store.
pub type Key = u32;

/// The place of a transaction in its block.
pub type TxnIndex = u32;

/// How many times a transaction was run before.
pub type Incarnation = u32;

/// The caller's own name for a value's bytes; it stands for the `Arc` of the old product.
pub type Handle = u32;

/// The caller's own name for a layout; it stands for `Arc<MoveTypeLayout>`.
pub type Layout = NonZeroU32;

/// The version of what storage held before the block: the base.
#[derive(Debug, Clone, Copy, PartialEq, Eq, Hash)]
pub struct StorageVersion;

/// Who wrote a value: a transaction in one of its incarnations, or storage.
pub type Version = Result<(TxnIndex, Incarnation), StorageVersion>;

/// What a read of data finds.
#[derive(Debug, Clone, Copy, PartialEq, Eq)]
pub enum MVDataOutput {
    /// The number that deltas over a known number come to.
    Resolved(u128),
    /// A value and who wrote it.
    Versioned(Version, ValueWithLayout),
}

/// Why a read of data finds no value.
#[derive(Debug, Clone, Copy, PartialEq, Eq)]
pub enum MVDataError {
    /// No entry is below the reader.
    Uninitialized,
    /// Deltas are below the reader and no value below them: what they merge to.
    Unresolved(DeltaOp),
    /// The entry of this transaction is an estimate.
    Dependency(TxnIndex),
    /// The deltas do not merge, or leave their limit.
    DeltaApplicationFailure,
    /// The read was refused.
    Refused(Refusal),
}

/// What materialising a delta answers.
#[derive(Debug, Clone, Copy, PartialEq, Eq)]
pub enum Materialized {
    /// The number, now recorded at the delta as its shortcut.
    Resolved(u128),
    /// No value is below: what the deltas merge to, with nothing recorded.
    Unresolved(DeltaOp),
}

/// Why a read of a group finds no value.
#[derive(Debug, Clone, Copy, PartialEq, Eq)]
pub enum MVGroupError {
    /// The group has no base.
    Uninitialized,
    /// The group has a base, and the tag no entry below the reader.
    TagNotFound,
    /// The entry of this transaction is an estimate.
    Dependency(TxnIndex),
    /// The read was refused.
    Refused(Refusal),
}

/// How large a group is.
#[derive(Debug, Clone, Copy, PartialEq, Eq, Hash)]
pub struct GroupSize {
    /// How many members have bytes.
    pub members: u32,
    /// The sum of their lengths, and 1 for each.
    pub size: u32,
}

impl From<Refusal> for MVDataError {
    fn from(refusal: Refusal) -> Self {
        MVDataError::Refused(refusal)
    }
}

impl From<Refusal> for MVGroupError {
    fn from(refusal: Refusal) -> Self {
        MVGroupError::Refused(refusal)
    }
}
