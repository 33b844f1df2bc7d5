//! The words of the answers. Each request has few of them, and that no other comes is proved.

use crate::value::VALUE_WORDS;
use crate::words;
use crate::{
    DeltaOp, GroupSize, MVDataError, MVDataOutput, MVGroupError, Materialized, StorageVersion, Tag,
    ValueWithLayout, Version,
};

const DONE: u32 = 0;
const VERSIONED: u32 = 1;
const RESOLVED: u32 = 2;
const UNRESOLVED: u32 = 3;
const UNINITIALIZED: u32 = 4;
const TAG_NOT_FOUND: u32 = 5;
const DEPENDENCY: u32 = 6;
const DELTA_APPLICATION_FAILURE: u32 = 7;
const SIZE: u32 = 8;
const COMMITTED: u32 = 9;
const WROTE_OUTSIDE: u32 = 10;
const VERSIONED_AT_BASE: u32 = 11;

/// An answer: its kind and the words that its head counts.
#[derive(Clone, Copy)]
pub(crate) struct Answer<'a> {
    kind: u32,
    words: &'a [u32],
}

impl<'a> Answer<'a> {
    /// The answer at the start of a slice.
    pub(crate) fn at_start_of(slice: &'a [u32]) -> Self {
        let (kind, count) = words::opened(slice[0]);
        Answer { kind, words: &slice[1..1 + count] }
    }

    fn versioned(self) -> (Version, ValueWithLayout) {
        match self.kind {
            VERSIONED => {
                let version = Ok((self.words[0], self.words[1]));
                (version, ValueWithLayout::of_words(&self.words[2..]))
            }
            VERSIONED_AT_BASE => (Err(StorageVersion), ValueWithLayout::of_words(self.words)),
            _ => self.unexpected(),
        }
    }

    fn number(self) -> u128 {
        words::number(self.words)
    }

    fn delta(self) -> DeltaOp {
        DeltaOp::of_words(self.words)
    }

    fn unexpected(self) -> ! {
        unreachable!("an answer of kind {} to a request that has none such", self.kind)
    }
}

pub(crate) fn done(answer: Answer<'_>) {
    match answer.kind {
        DONE => (),
        _ => answer.unexpected(),
    }
}

/// Whether a group write wrote a tag outside the earlier update.
pub(crate) fn wrote_outside(answer: Answer<'_>) -> bool {
    match answer.kind {
        DONE => false,
        WROTE_OUTSIDE => true,
        _ => answer.unexpected(),
    }
}

pub(crate) fn data(answer: Answer<'_>) -> Result<MVDataOutput, MVDataError> {
    match answer.kind {
        RESOLVED => Ok(MVDataOutput::Resolved(answer.number())),
        UNINITIALIZED => Err(MVDataError::Uninitialized),
        UNRESOLVED => Err(MVDataError::Unresolved(answer.delta())),
        DEPENDENCY => Err(MVDataError::Dependency(answer.words[0])),
        DELTA_APPLICATION_FAILURE => Err(MVDataError::DeltaApplicationFailure),
        _ => {
            let (version, value) = answer.versioned();
            Ok(MVDataOutput::Versioned(version, value))
        }
    }
}

pub(crate) fn materialized(answer: Answer<'_>) -> Materialized {
    match answer.kind {
        RESOLVED => Materialized::Resolved(answer.number()),
        UNRESOLVED => Materialized::Unresolved(answer.delta()),
        _ => answer.unexpected(),
    }
}

pub(crate) fn tagged(answer: Answer<'_>) -> Result<(Version, ValueWithLayout), MVGroupError> {
    match answer.kind {
        UNINITIALIZED => Err(MVGroupError::Uninitialized),
        TAG_NOT_FOUND => Err(MVGroupError::TagNotFound),
        DEPENDENCY => Err(MVGroupError::Dependency(answer.words[0])),
        _ => Ok(answer.versioned()),
    }
}

pub(crate) fn size(answer: Answer<'_>) -> Result<GroupSize, MVGroupError> {
    match answer.kind {
        SIZE => Ok(GroupSize { members: answer.words[0], size: answer.words[1] }),
        UNINITIALIZED => Err(MVGroupError::Uninitialized),
        DEPENDENCY => Err(MVGroupError::Dependency(answer.words[0])),
        _ => answer.unexpected(),
    }
}

pub(crate) fn committed(answer: Answer<'_>) -> Vec<(Tag, ValueWithLayout)> {
    match answer.kind {
        COMMITTED => (),
        _ => answer.unexpected(),
    }
    let set = u64::from(answer.words[0]) | u64::from(answer.words[1]) << 32;
    let values = answer.words[2..].chunks_exact(VALUE_WORDS).map(ValueWithLayout::of_words);
    Tag::in_set(set).zip(values).collect()
}
