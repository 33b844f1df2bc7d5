//! Groups by key, tag and transaction, as the old `versioned_group_data.rs`.

use crate::answer;
use crate::request::{self, At, Members};
use crate::{
    GroupSize, Incarnation, Key, Layout, MVGroupError, MVHashMap, Refusal, Tag, TxnIndex,
    ValueWithLayout, Version, WriteOp,
};

/// The group store of a map: for each key, the updates of transactions over a base, each a set of
/// tags with values, and the committed group.
#[derive(Debug, Clone, Copy)]
pub struct VersionedGroupData<'a> {
    map: &'a MVHashMap,
}

impl<'a> VersionedGroupData<'a> {
    pub(crate) fn of(map: &'a MVHashMap) -> Self {
        VersionedGroupData { map }
    }

    /// Records and commits what storage holds. A later base may name only tags of the first, with
    /// equal lengths where those are still raw (else 8), and changes nothing.
    pub fn set_raw_base_values(
        &self,
        key: Key,
        base_values: impl IntoIterator<Item = (Tag, WriteOp)>,
    ) -> Result<(), Refusal> {
        let raw = |(tag, value)| (tag, ValueWithLayout::RawFromStorage(value));
        let members: Members = base_values.into_iter().map(raw).collect();
        self.map.ask(&request::group_base(key, &members), answer::done)
    }

    /// Exchanges a raw value of the base, and the committed value with it. A base value that is
    /// exchanged already stays as it is.
    pub fn update_tagged_base_value_with_layout(
        &self,
        key: Key,
        tag: Tag,
        value: WriteOp,
        layout: Option<Layout>,
    ) -> Result<(), Refusal> {
        let value = ValueWithLayout::Exchanged(value, layout);
        self.map.ask(&request::exchange(key, tag, value), answer::done)
    }

    /// Records a transaction's update in place of its earlier one. True if it has a tag that the
    /// earlier one had not. A tag given twice has its last value.
    pub fn write(
        &self,
        key: Key,
        txn_idx: TxnIndex,
        incarnation: Incarnation,
        values: impl IntoIterator<Item = (Tag, (WriteOp, Option<Layout>))>,
    ) -> Result<bool, Refusal> {
        let exchanged = |(tag, (value, layout))| (tag, ValueWithLayout::Exchanged(value, layout));
        let members: Members = values.into_iter().map(exchanged).collect();
        let request = request::group_write(key, txn_idx, incarnation, &members);
        self.map.ask(&request, answer::wrote_outside)
    }

    /// Marks a transaction's update as an estimate. 6 if there is none.
    pub fn mark_estimate(&self, key: Key, txn_idx: TxnIndex) -> Result<(), Refusal> {
        self.map.ask(&request::at(At::MarkGroupEstimate, key, txn_idx), answer::done)
    }

    /// Removes a transaction's update, if there is one.
    pub fn remove(&self, key: Key, txn_idx: TxnIndex) -> Result<(), Refusal> {
        self.map.ask(&request::at(At::RemoveGroup, key, txn_idx), answer::done)
    }

    /// What a transaction reads of one tag.
    pub fn fetch_tagged_data(
        &self,
        key: Key,
        tag: Tag,
        txn_idx: TxnIndex,
    ) -> Result<(Version, ValueWithLayout), MVGroupError> {
        self.map.ask(&request::fetch_tagged(key, tag, txn_idx), answer::tagged)?
    }

    /// How large a transaction sees the group.
    pub fn get_group_size(&self, key: Key, txn_idx: TxnIndex) -> Result<GroupSize, MVGroupError> {
        self.map.ask(&request::at(At::GetGroupSize, key, txn_idx), answer::size)?
    }

    /// Commits a transaction's update, and answers the committed group after it, by rising tag.
    pub fn finalize_group(
        &self,
        key: Key,
        txn_idx: TxnIndex,
    ) -> Result<Vec<(Tag, ValueWithLayout)>, Refusal> {
        self.map.ask(&request::at(At::FinalizeGroup, key, txn_idx), answer::committed)
    }

    /// The committed group, by rising tag; empty where nothing was committed.
    pub fn get_last_committed_group(
        &self,
        key: Key,
    ) -> Result<Vec<(Tag, ValueWithLayout)>, Refusal> {
        self.map.ask(&request::last_committed(key), answer::committed)
    }
}
