//! The words of the sixteen requests.

use crate::delta::DELTA_WORDS;
use crate::value::VALUE_WORDS;
use crate::words::head;
use crate::{DeltaOp, Incarnation, Key, Tag, TxnIndex, ValueWithLayout};

/// Requests of a key and an index.
#[repr(u32)]
#[derive(Debug, Clone, Copy)]
pub(crate) enum At {
    MarkEstimate = 4,
    Remove = 5,
    FetchData = 6,
    MaterializeDelta = 7,
    MarkGroupEstimate = 11,
    RemoveGroup = 12,
    GetGroupSize = 14,
    FinalizeGroup = 15,
}

const LAST_COMMITTED: u32 = 0;
const BASE: u32 = 1;
const WRITE: u32 = 2;
const DELTA: u32 = 3;
const GROUP_BASE: u32 = 8;
const EXCHANGE: u32 = 9;
const GROUP_WRITE: u32 = 10;
const FETCH_TAGGED: u32 = 13;

pub(crate) fn at(kind: At, key: Key, index: TxnIndex) -> [u32; 3] {
    [head(kind as u32, 2), key, index]
}

pub(crate) fn last_committed(key: Key) -> [u32; 2] {
    [head(LAST_COMMITTED, 1), key]
}

pub(crate) fn base(key: Key, value: ValueWithLayout) -> [u32; 2 + VALUE_WORDS] {
    joined([head(BASE, 8), key], value.words())
}

pub(crate) fn write(
    key: Key,
    index: TxnIndex,
    incarnation: Incarnation,
    value: ValueWithLayout,
) -> [u32; 4 + VALUE_WORDS] {
    joined([head(WRITE, 10), key, index, incarnation], value.words())
}

pub(crate) fn delta(key: Key, index: TxnIndex, delta: DeltaOp) -> [u32; 3 + DELTA_WORDS] {
    joined([head(DELTA, 19), key, index], delta.words())
}

pub(crate) fn exchange(key: Key, tag: Tag, value: ValueWithLayout) -> [u32; 3 + VALUE_WORDS] {
    joined([head(EXCHANGE, 9), key, tag.get().into()], value.words())
}

pub(crate) fn fetch_tagged(key: Key, tag: Tag, index: TxnIndex) -> [u32; 4] {
    [head(FETCH_TAGGED, 3), key, tag.get().into(), index]
}

pub(crate) fn group_base(key: Key, members: &Members) -> Vec<u32> {
    members.request(GROUP_BASE, &[key])
}

pub(crate) fn group_write(
    key: Key,
    index: TxnIndex,
    incarnation: Incarnation,
    members: &Members,
) -> Vec<u32> {
    members.request(GROUP_WRITE, &[key, index, incarnation])
}

fn joined<const M: usize, const N: usize, const SUM: usize>(
    fields: [u32; M],
    value: [u32; N],
) -> [u32; SUM] {
    const { assert!(M + N == SUM) };
    let mut words = [0; SUM];
    words[..M].copy_from_slice(&fields);
    words[M..].copy_from_slice(&value);
    words
}

/// A set of tags and a value for each. A tag given twice has its last value, as in the old maps.
pub(crate) struct Members {
    set: u64,
    values: [[u32; VALUE_WORDS]; Tag::COUNT],
}

impl FromIterator<(Tag, ValueWithLayout)> for Members {
    fn from_iter<I: IntoIterator<Item = (Tag, ValueWithLayout)>>(tagged: I) -> Self {
        let mut members = Members { set: 0, values: [[0; VALUE_WORDS]; Tag::COUNT] };
        for (tag, value) in tagged {
            members.set |= tag.bit();
            members.values[usize::from(tag.get())] = value.words();
        }
        members
    }
}

impl Members {
    /// A head, fields, the set, and the values in rising order of tags.
    fn request(&self, kind: u32, fields: &[u32]) -> Vec<u32> {
        let count = fields.len() + 2 + VALUE_WORDS * self.set.count_ones() as usize;
        let mut words = Vec::with_capacity(1 + count);
        words.push(head(kind, count as u32));
        words.extend_from_slice(fields);
        words.extend([self.set as u32, (self.set >> 32) as u32]);
        for tag in Tag::in_set(self.set) {
            words.extend_from_slice(&self.values[usize::from(tag.get())]);
        }
        words
    }
}
