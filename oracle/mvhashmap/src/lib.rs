//! The old product: its three files, compiled unchanged from where they were handed over
//! (build/main.rs), and the constructors that they keep to their crate.

include!(concat!(env!("OUT_DIR"), "/old_files.rs"));

use aptos_types::write_set::TransactionWrite;
use serde::Serialize;
use std::{fmt::Debug, hash::Hash};

pub fn new_data<K: Hash + Clone + Debug + Eq, V: TransactionWrite>(
) -> versioned_data::VersionedData<K, V> {
    versioned_data::VersionedData::new()
}

pub fn new_group_data<K, T, V>() -> versioned_group_data::VersionedGroupData<K, T, V>
where
    K: Hash + Clone + Debug + Eq,
    T: Hash + Clone + Debug + Eq + Serialize,
    V: TransactionWrite,
{
    versioned_group_data::VersionedGroupData::new()
}
