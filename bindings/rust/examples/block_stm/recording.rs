//! What a pass leaves in the store: its writes, deltas and group updates, with the incarnation, and
//! without what the pass before it left and it does not.

use crate::counts::{Counts, Met};
use crate::failure::{refused, Failure};
use crate::program::{Members, Output, Written};
use crate::scheduler::Pass;
use proved_mvhashmap::*;

/// Where a transaction has an entry.
#[derive(Debug, Clone, Copy, PartialEq, Eq)]
pub enum Place {
    Data(Key),
    Group(Key),
}

#[derive(Debug)]
pub enum Change {
    Put { key: Key, written: Written, new_path: bool },
    Update { key: Key, members: Members, earlier: bool },
    Remove(Place),
}

/// The places of an output.
pub fn places(output: &Output) -> Vec<Place> {
    let data = output.data.keys().map(|key| Place::Data(*key));
    data.chain(output.groups.keys().map(|key| Place::Group(*key))).collect()
}

/// From one pass's output to the next one's, the first to be made last.
pub fn changes(earlier: &Output, output: &Output) -> Vec<Change> {
    let put = output.data.iter().map(|(key, written)| Change::Put {
        key: *key,
        written: *written,
        new_path: !earlier.data.contains_key(key),
    });
    let update = output.groups.iter().map(|(key, members)| Change::Update {
        key: *key,
        members: members.clone(),
        earlier: earlier.groups.contains_key(key),
    });
    let kept = places(output);
    let gone = places(earlier).into_iter().filter(|place| !kept.contains(place));
    put.chain(update).chain(gone.map(Change::Remove)).collect()
}

impl Change {
    /// Makes the change. True if it wrote where the pass before it had not.
    pub fn apply(self, map: &MVHashMap, pass: Pass, counts: &mut Counts) -> Result<bool, Failure> {
        match self {
            Change::Put { key, written, new_path } => {
                put(map, pass, key, written)?;
                Ok(new_path)
            }
            Change::Update { key, members, earlier } => {
                let outside = update(map, pass, key, members)?;
                counts.count_if(Met::WroteOutside, outside && earlier);
                Ok(outside)
            }
            Change::Remove(place) => {
                counts.count(Met::Removal);
                place.remove(map, pass.txn_idx)?;
                Ok(false)
            }
        }
    }
}

fn put(map: &MVHashMap, pass: Pass, key: Key, written: Written) -> Result<(), Failure> {
    let Pass { txn_idx, incarnation } = pass;
    let done = match written {
        Written::Value(value, layout) => map.data().write(key, txn_idx, incarnation, value, layout),
        Written::Delta(delta) => map.data().add_delta(key, txn_idx, delta),
    };
    done.map_err(refused(|| format!("the write of data key {key} in {pass:?}")))
}

fn update(map: &MVHashMap, pass: Pass, key: Key, members: Members) -> Result<bool, Failure> {
    let Pass { txn_idx, incarnation } = pass;
    let outside = map.group_data().write(key, txn_idx, incarnation, members);
    outside.map_err(refused(|| format!("the update of group {key} in {pass:?}")))
}

impl Place {
    fn remove(self, map: &MVHashMap, txn_idx: TxnIndex) -> Result<(), Failure> {
        let done = match self {
            Place::Data(key) => map.data().remove(key, txn_idx),
            Place::Group(key) => map.group_data().remove(key, txn_idx),
        };
        done.map_err(refused(|| format!("to remove {self:?} of transaction {txn_idx}")))
    }

    pub fn mark_estimate(self, map: &MVHashMap, txn_idx: TxnIndex) -> Result<(), Failure> {
        let done = match self {
            Place::Data(key) => map.data().mark_estimate(key, txn_idx),
            Place::Group(key) => map.group_data().mark_estimate(key, txn_idx),
        };
        done.map_err(refused(|| format!("the estimate of {self:?} of transaction {txn_idx}")))
    }
}
