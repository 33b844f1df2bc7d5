//! The group store: its words are read into maps, each update and value is held to 01's rules, and
//! the maps are laid out anew. It is valid exactly if the words come out the same.

use super::{flag, is_deletion, is_exchanged, value_is_fine, Value};
use proved_mvhashmap::{MAX_UNITS, UNIT_WORDS};
use std::collections::BTreeMap;

type Slot = [u32; UNIT_WORDS];

pub fn group_valid(store: &[u32]) -> bool {
    let units = units_of(store);
    groups_in(&units).is_some_and(|groups| same_words(&units, group_slots(&groups)))
}

/// "A store of W words has W / 32 units, rounded down, at most 4,096."
fn units_of(store: &[u32]) -> Vec<Slot> {
    store.chunks_exact(UNIT_WORDS).take(MAX_UNITS).map(|unit| unit.try_into().unwrap()).collect()
}

fn used(units: &[Slot]) -> impl Iterator<Item = &Slot> {
    units.iter().filter(|unit| unit[0] != 0)
}

/// The slots stand at the front, in this order, and all else is zero.
fn same_words(units: &[Slot], slots: Vec<Slot>) -> bool {
    let rest = units.len().checked_sub(slots.len());
    rest.is_some_and(|rest| units == [slots, vec![[0; UNIT_WORDS]; rest]].concat())
}

fn slot(words: &[u32]) -> Slot {
    let mut slot = [0; UNIT_WORDS];
    slot[..words.len()].copy_from_slice(words);
    slot
}

struct Update {
    estimate: bool,
    incarnation: u32,
    members: BTreeMap<u32, Value>,
}

/// Updates by key and shifted index, committed values by key and tag.
#[derive(Default)]
struct Groups {
    updates: BTreeMap<(u32, u32), Update>,
    committed: BTreeMap<(u32, u32), Value>,
}

fn groups_in(units: &[Slot]) -> Option<Groups> {
    let mut groups = Groups::default();
    let updates = used(units).filter(|unit| unit[0] == 1 && unit[3] == 0);
    for unit in updates {
        let update = update_in(unit).filter(|update| update_is_fine(unit[2], update))?;
        if groups.updates.insert((unit[1], unit[2]), update).is_some() {
            return None;
        }
    }
    for unit in used(units).filter(|unit| unit[0] != 1 || unit[3] != 0) {
        match unit[0] {
            1 => put_member(&mut groups, unit)?,
            2 => put_committed(&mut groups, unit)?,
            _ => return None,
        }
    }
    Some(groups)
}

fn update_in(unit: &Slot) -> Option<Update> {
    Some(Update { estimate: flag(unit[5])?, incarnation: unit[6], members: BTreeMap::new() })
}

fn update_is_fine(place: u32, update: &Update) -> bool {
    place != 0 || update.incarnation == 0 && !update.estimate
}

/// "update sets and tagged entries match": a member has its update. That its incarnation and mark
/// are the update's is seen when the update is laid out anew.
fn put_member(groups: &mut Groups, unit: &Slot) -> Option<()> {
    let (place, tag, value) = (unit[2], unit[3] - 1, unit[7..14].try_into().unwrap());
    if tag > 63 || !value_is_fine(&value) || place != 0 && !is_exchanged(&value) {
        return None;
    }
    let update = groups.updates.get_mut(&(unit[1], place))?;
    update.members.insert(tag, value).is_none().then_some(())
}

/// "no committed deletion"
fn put_committed(groups: &mut Groups, unit: &Slot) -> Option<()> {
    let (tag, value) = (unit[2], unit[7..14].try_into().unwrap());
    if tag > 63 || !value_is_fine(&value) || is_deletion(&value) {
        return None;
    }
    groups.committed.insert((unit[1], tag), value).is_none().then_some(())
}

fn group_slots(groups: &Groups) -> Vec<Slot> {
    let updates = groups.updates.iter().flat_map(|(&(key, place), update)| {
        let head =
            move |part| [1, key, place, part, 0, u32::from(update.estimate), update.incarnation];
        let members = update.members.iter();
        let members = members.map(move |(tag, value)| [&head(1 + tag)[..], value].concat());
        std::iter::once(slot(&head(0))).chain(members.map(|words| slot(&words)))
    });
    let committed = groups
        .committed
        .iter()
        .map(|(&(key, tag), value)| slot(&[&[2, key, tag, 0, 0, 0, 0], &value[..]].concat()));
    updates.chain(committed).collect()
}
