//! The rows on the group store: keys with a base, its committed values and updates above it.

use super::{fewer_operations, held, spread_keys, value};
use crate::scenario::Scenario;
use histories::rng::Rng;
use request::{value::CREATION, Request, Tagged, Value};
use std::collections::{BTreeMap, BTreeSet};

/// Where the lowest update of every key is.
const INDEX: u32 = 5;
/// Timed operations of a round.
const OPERATIONS: usize = 1024;

/// What every key of a row holds.
struct Shape {
    /// Tags of the base, each with a committed value.
    tags: usize,
    updates: u32,
    /// Tags of an update: so many of the base's, from the lowest.
    of_update: usize,
}

/// One update of all 8 tags: 26 units a key.
const PLAIN: Shape = Shape { tags: 8, updates: 1, of_update: 8 };
/// Two updates to be finalised, so that a commit has other values to put.
const LARGE: Shape = Shape { tags: 60, updates: 2, of_update: 60 };
/// The updates hold the lowest tag; a fetch of another passes them all.
const DEEP: Shape = Shape { tags: 8, updates: 12, of_update: 1 };

impl Shape {
    fn units(&self) -> usize {
        2 * self.tags + 1 + self.updates as usize * (1 + self.of_update)
    }

    fn base_and_updates(&self, key: u32, tags: &[u8]) -> Vec<Request> {
        let base: Tagged = tags.iter().map(|tag| (*tag, Value::raw(CREATION, 40))).collect();
        let mut requests = vec![Request::group_base(key, &base)];
        for n in 0..self.updates {
            let tags = tags[..self.of_update].iter();
            let update: Tagged = tags.map(|tag| (*tag, value(64 * n + u32::from(*tag)))).collect();
            requests.push(Request::group_write(key, INDEX + n, 0, &update));
        }
        requests
    }
}

/// A key and the tags of its base.
type Group = (u32, Vec<u8>);

/// Those of which a key has room.
pub fn all(units: usize) -> Vec<Scenario> {
    let rows = [
        fetch(units),
        size(units),
        rewrite(units),
        remove_and_write(units),
        fetch_below_updates(units),
        finalise(units),
    ];
    rows.into_iter().flatten().collect()
}

/// 15 of 16 units held, in keys with one update where they have room.
pub fn setup(units: usize) -> Vec<Request> {
    groups(&mut Rng::new(5, units as u64), units, &PLAIN).1
}

/// Half of the fetches see the update, half the base.
fn fetch(units: usize) -> Option<Scenario> {
    row("group fetch", units, &PLAIN, OPERATIONS, |rng, key, tags| {
        [Request::group_fetch(key, u32::from(rng.pick(tags)), rng.pick(&[INDEX, INDEX + 1]))]
    })
}

fn size(units: usize) -> Option<Scenario> {
    row("group size", units, &PLAIN, OPERATIONS, |_, key, _| [Request::group_size(key, INDEX + 1)])
}

fn rewrite(units: usize) -> Option<Scenario> {
    let mut incarnation = 0;
    row("group rewrite", units, &PLAIN, fewer_operations(units), |rng, key, tags| {
        incarnation += 1;
        [Request::group_write(key, INDEX, incarnation, &drawn_values(rng, tags))]
    })
}

fn remove_and_write(units: usize) -> Option<Scenario> {
    row("group remove and write", units, &PLAIN, fewer_operations(units), |rng, key, tags| {
        let values = drawn_values(rng, tags);
        [Request::group_remove(key, INDEX), Request::group_write(key, INDEX, 1, &values)]
    })
}

/// Each fetch looks above all updates for a tag that only the base has.
fn fetch_below_updates(units: usize) -> Option<Scenario> {
    row("group fetch below 12 updates", units, &DEEP, OPERATIONS, |rng, key, tags| {
        let tag = rng.pick(&tags[DEEP.of_update..]);
        [Request::group_fetch(key, u32::from(tag), INDEX + DEEP.updates)]
    })
}

/// Modifications, which may be finalised again and again: a key's two updates in turn.
fn finalise(units: usize) -> Option<Scenario> {
    let mut turns = BTreeMap::new();
    row("finalise of 60 tags", units, &LARGE, fewer_operations(units), |_, key, _| {
        let turn = turns.entry(key).or_insert(0);
        *turn += 1;
        [Request::finalise(key, INDEX + *turn % LARGE.updates)]
    })
}

/// `None` where not even one key has room.
fn row<const N: usize>(
    row: &'static str,
    units: usize,
    shape: &Shape,
    operations: usize,
    mut operation: impl FnMut(&mut Rng, u32, &[u8]) -> [Request; N],
) -> Option<Scenario> {
    let mut rng = Rng::new(5, units as u64);
    let (groups, setup) = groups(&mut rng, units, shape);
    if groups.is_empty() {
        return None;
    }
    let mut timed = vec![];
    for _ in 0..operations {
        let (key, tags) = &groups[rng.below(groups.len())];
        timed.extend(operation(&mut rng, *key, tags));
    }
    Some(Scenario { requests_each: N, ..Scenario::of(row, units, setup, timed) })
}

/// As many keys as have room, and what makes them, with the rest of the units filled.
fn groups(rng: &mut Rng, units: usize, shape: &Shape) -> (Vec<Group>, Vec<Request>) {
    let keys = spread_keys(rng, held(units) / shape.units());
    let groups: Vec<Group> = keys.into_iter().map(|key| (key, tags(rng, shape.tags))).collect();
    let mut setup: Vec<Request> =
        groups.iter().flat_map(|(key, tags)| shape.base_and_updates(*key, tags)).collect();
    setup.extend(filler(held(units) - groups.len() * shape.units()));
    (groups, setup)
}

/// So many of the 64 tags, rising.
fn tags(rng: &mut Rng, count: usize) -> Vec<u8> {
    let mut tags = BTreeSet::new();
    while tags.len() < count {
        tags.insert(rng.below(64) as u8);
    }
    tags.into_iter().collect()
}

fn drawn_values(rng: &mut Rng, tags: &[u8]) -> Tagged {
    tags.iter().map(|tag| (*tag, value(rng.word()))).collect()
}

/// Updates of one more key that take the units that are left.
fn filler(left: usize) -> Vec<Request> {
    let mut updates = vec![];
    let mut left = left;
    while left > 0 {
        let tags = (left - 1).min(64);
        let values: Tagged = (0..tags as u8).map(|tag| (tag, value(0))).collect();
        updates.push(Request::group_write(0, updates.len() as u32, 0, &values));
        left -= 1 + tags;
    }
    updates
}
