//! What the block leaves: the values that a transaction after the last one would read, and the
//! committed groups, each compared with the sequential run.

use crate::commit::{same, same_group};
use crate::counts::Counts;
use crate::failure::{refused, Failure};
use crate::program::{Location, Members, Seen};
use crate::reader::{Descriptor, Progress, Reader};
use crate::reference::{self, Outcome, Value};
use crate::scheduler::locked;
use crate::worker::Shared;
use proved_mvhashmap::*;

pub fn compare(shared: &Shared<'_>, outcome: &Outcome, counts: &mut Counts) -> Result<(), Failure> {
    for (key, value) in &outcome.values {
        let found = final_value(shared, *key, counts)?;
        same(|| name(Location::Data(*key)), value, &found)?;
    }
    for (key, group) in &outcome.groups {
        let found = shared.map.group_data().get_last_committed_group(*key);
        let place = || format!("the committed group {key} after the block");
        let found = found.map_err(refused(place))?;
        same_group(shared.block, place, *key, group, &found)?;
        compare_reads(shared, *key, group, counts)?;
    }
    Ok(())
}

fn name(location: Location) -> String {
    format!("{location:?} after the block")
}

/// Every tag is read, also those that no transaction names, and the size.
fn compare_reads(
    shared: &Shared<'_>,
    key: Key,
    group: &Members,
    counts: &mut Counts,
) -> Result<(), Failure> {
    let size = (Location::Size(key), Seen::Size(reference::size(group)));
    let members = (0..Tag::COUNT as u8).filter_map(Tag::new).map(|tag| {
        let seen =
            group.get(&tag).map_or(Seen::Absent, |(value, layout)| Seen::value(*value, *layout));
        (Location::Member(key, tag), seen)
    });
    for (location, seen) in members.chain([size]) {
        let (_, found) = read(shared, location, counts)?;
        same(|| name(location), &seen, &found)?;
    }
    Ok(())
}

/// Reads after the last transaction. A version it finds is of its transaction's last pass.
fn read(
    shared: &Shared<'_>,
    location: Location,
    counts: &mut Counts,
) -> Result<(Descriptor, Seen), Failure> {
    let mut reader = Reader::new(location, shared.block.len());
    loop {
        match reader.step(&shared.map, &shared.block.storage, counts)? {
            Progress::Again => (),
            Progress::Blocked(blocking) => {
                let answer = format!("an estimate of transaction {blocking}");
                return Err(Failure::Unexpected { request: name(location), answer });
            }
            Progress::Found(descriptor, seen) => {
                if let Descriptor::Version(txn_idx, incarnation) = descriptor {
                    let last = locked(&shared.results[txn_idx as usize]).incarnation;
                    let place = || format!("the incarnation of {}", name(location));
                    same(place, &last, &incarnation)?;
                }
                return Ok((descriptor, seen));
            }
        }
    }
}

/// A final value whole: a program is not shown a deletion, but it is compared too.
fn final_value(shared: &Shared<'_>, key: Key, counts: &mut Counts) -> Result<Value, Failure> {
    let location = Location::Data(key);
    match read(shared, location, counts)?.0 {
        Descriptor::Number(number) => return Ok(Value::Number(number)),
        Descriptor::DeltaFailure => return Ok(Value::DeltaFailure),
        _ => (),
    }
    match shared.map.data().fetch_data(key, shared.block.len()) {
        Ok(MVDataOutput::Versioned(version, value)) => {
            let writer = version.ok().map(|(txn_idx, _)| txn_idx);
            Ok(Value::Written(writer, *value.write_op(), value.layout()))
        }
        answer => {
            let answer = format!("{answer:?}");
            Err(Failure::Unexpected { request: name(location), answer })
        }
    }
}
