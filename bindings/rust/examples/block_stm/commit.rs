//! The end of a block: deltas are materialised and groups finalised in the order of the block, and
//! what each comes to is compared with the sequential run.

use crate::block::Block;
use crate::counts::{Counts, Met};
use crate::failure::{refused, Failure};
use crate::plant::Plant;
use crate::program::{Location, Members, Output, Written};
use crate::reader::set_base;
use crate::reference::{Committed, Outcome};
use crate::scheduler::locked;
use crate::worker::Shared;
use proved_mvhashmap::*;
use std::collections::BTreeMap;
use std::fmt::Debug;

/// Commits the block, transaction by transaction.
pub fn commit(shared: &Shared<'_>, outcome: &Outcome, counts: &mut Counts) -> Result<(), Failure> {
    let Shared { block, map, plant, .. } = shared;
    for key in block.group_keys.clone() {
        set_base(map, &block.storage, Location::Size(key))?;
    }
    for (txn_idx, committed) in (0..).zip(&outcome.transactions) {
        same_output(txn_idx, &committed.output, &locked(&shared.results[txn_idx as usize]).output)?;
        if *plant != Some(Plant::SkipMaterialize) {
            materialize(shared, txn_idx, committed, counts)?;
        }
    }
    let mut order: Vec<_> = (0..block.len()).zip(&outcome.transactions).collect();
    if *plant == Some(Plant::FinalizeBackwards) {
        order.reverse();
    }
    for (txn_idx, committed) in order {
        finalize(block, map, txn_idx, committed)?;
    }
    Ok(())
}

/// Both runs must come to the same.
pub fn same<T: PartialEq + Debug>(
    place: impl FnOnce() -> String,
    sequential: &T,
    parallel: &T,
) -> Result<(), Failure> {
    if sequential == parallel {
        return Ok(());
    }
    let (sequential, parallel) = (format!("{sequential:?}"), format!("{parallel:?}"));
    Err(Failure::Differs { place: place(), sequential, parallel })
}

/// Compares what a transaction's last pass wrote, key by key, to name the first that differs.
fn same_output(txn_idx: TxnIndex, expected: &Output, found: &Output) -> Result<(), Failure> {
    let by = |name: &str, key: Key| format!("{name} {key} as written by transaction {txn_idx}");
    for key in keys(&expected.data, &found.data) {
        same(|| by("data key", key), &expected.data.get(&key), &found.data.get(&key))?;
    }
    for key in keys(&expected.groups, &found.groups) {
        same(|| by("group", key), &expected.groups.get(&key), &found.groups.get(&key))?;
    }
    Ok(())
}

fn keys<T>(one: &BTreeMap<Key, T>, other: &BTreeMap<Key, T>) -> Vec<Key> {
    let mut keys: Vec<Key> = one.keys().chain(other.keys()).copied().collect();
    keys.sort_unstable();
    keys.dedup();
    keys
}

fn materialize(
    shared: &Shared<'_>,
    txn_idx: TxnIndex,
    committed: &Committed,
    counts: &mut Counts,
) -> Result<(), Failure> {
    let deltas = committed.output.data.iter().filter(|(_, w)| matches!(w, Written::Delta(_)));
    for (key, _) in deltas {
        let place = || format!("data key {key} materialised at transaction {txn_idx}");
        let found = materialized(shared, *key, txn_idx, place)?;
        counts.count_if(Met::NotMaterializable, found.is_none());
        same(place, &committed.numbers[key], &found)?;
    }
    Ok(())
}

/// The number of a delta; none where it fails, by 13. An unresolved one wants its base.
fn materialized(
    shared: &Shared<'_>,
    key: Key,
    txn_idx: TxnIndex,
    place: impl Fn() -> String,
) -> Result<Option<u128>, Failure> {
    let data = shared.map.data();
    let mut answer = data.materialize_delta(key, txn_idx);
    if let Ok(Materialized::Unresolved(_)) = answer {
        set_base(&shared.map, &shared.block.storage, Location::Data(key))?;
        answer = data.materialize_delta(key, txn_idx);
    }
    match answer {
        Ok(Materialized::Resolved(number)) => Ok(Some(number)),
        Err(Refusal::NotMaterializable) => Ok(None),
        Err(refusal) => Err(refused(place)(refusal)),
        Ok(answer) => {
            let answer = format!("{answer:?} though its base is set");
            Err(Failure::Unexpected { request: place(), answer })
        }
    }
}

fn finalize(
    block: &Block,
    map: &MVHashMap,
    txn_idx: TxnIndex,
    committed: &Committed,
) -> Result<(), Failure> {
    for (key, group) in &committed.groups {
        let place = || format!("group {key} finalised at transaction {txn_idx}");
        let found = map.group_data().finalize_group(*key, txn_idx).map_err(refused(place))?;
        same_group(block, place, *key, group, &found)?;
    }
    Ok(())
}

/// A committed value still from storage is raw, or exchanged if a pass read it: that goes by the
/// order of passes, so such a value counts as exchanged.
pub fn same_group(
    block: &Block,
    place: impl FnOnce() -> String,
    key: Key,
    expected: &Members,
    found: &[(Tag, ValueWithLayout)],
) -> Result<(), Failure> {
    let exchanged = |(tag, value): &(Tag, ValueWithLayout)| match value {
        ValueWithLayout::Exchanged(value, layout) => (*tag, (*value, *layout)),
        ValueWithLayout::RawFromStorage(value) => {
            let layout = block.storage.group(key).get(tag).and_then(|(_, layout)| *layout);
            (*tag, (*value, layout))
        }
    };
    same(place, expected, &found.iter().map(exchanged).collect())
}
