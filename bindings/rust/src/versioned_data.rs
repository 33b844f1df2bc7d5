//! Data by key and transaction, as the old `versioned_data.rs`.

use crate::answer;
use crate::request::{self, At};
use crate::{
    DeltaOp, Incarnation, Key, Layout, MVDataError, MVDataOutput, MVHashMap, Materialized, Refusal,
    TxnIndex, ValueWithLayout, WriteOp,
};

/// The data store of a map: for each key, the writes and deltas of transactions, over a base.
#[derive(Debug, Clone, Copy)]
pub struct VersionedData<'a> {
    map: &'a MVHashMap,
}

impl<'a> VersionedData<'a> {
    pub(crate) fn of(map: &'a MVHashMap) -> Self {
        VersionedData { map }
    }

    /// Records what storage holds. A first base is kept. A later one must agree with it (else 8),
    /// and changes nothing but a raw base, which an exchanged one replaces.
    pub fn set_base_value(&self, key: Key, value: ValueWithLayout) -> Result<(), Refusal> {
        self.map.ask(&request::base(key, value), answer::done)
    }

    /// Records a transaction's write. Over its own earlier write the incarnation must be higher
    /// (else 7); over its delta it may be any.
    pub fn write(
        &self,
        key: Key,
        txn_idx: TxnIndex,
        incarnation: Incarnation,
        value: WriteOp,
        layout: Option<Layout>,
    ) -> Result<(), Refusal> {
        let value = ValueWithLayout::Exchanged(value, layout);
        self.map.ask(&request::write(key, txn_idx, incarnation, value), answer::done)
    }

    /// Records a transaction's delta, in place of what it had there.
    pub fn add_delta(&self, key: Key, txn_idx: TxnIndex, delta: DeltaOp) -> Result<(), Refusal> {
        self.map.ask(&request::delta(key, txn_idx, delta), answer::done)
    }

    /// Marks a transaction's entry as an estimate: readers above it get a dependency. 6 if there
    /// is none.
    pub fn mark_estimate(&self, key: Key, txn_idx: TxnIndex) -> Result<(), Refusal> {
        self.map.ask(&request::at(At::MarkEstimate, key, txn_idx), answer::done)
    }

    /// Removes a transaction's entry. 6 if there is none.
    pub fn remove(&self, key: Key, txn_idx: TxnIndex) -> Result<(), Refusal> {
        self.map.ask(&request::at(At::Remove, key, txn_idx), answer::done)
    }

    /// What a transaction reads: what those before it, and storage, left at the key.
    pub fn fetch_data(&self, key: Key, txn_idx: TxnIndex) -> Result<MVDataOutput, MVDataError> {
        self.map.ask(&request::at(At::FetchData, key, txn_idx), answer::data)?
    }

    /// Works out a transaction's delta and records the number at it as a shortcut, so that readers
    /// above go no further down. With no value below, answers what the deltas merge to.
    pub fn materialize_delta(&self, key: Key, txn_idx: TxnIndex) -> Result<Materialized, Refusal> {
        self.map.ask(&request::at(At::MaterializeDelta, key, txn_idx), answer::materialized)
    }
}
