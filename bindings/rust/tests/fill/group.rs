//! The phases of a round on the group store.

use crate::common::some::some_value;
use crate::common::words::*;
use crate::model::Said;
use crate::round::Round;
use proved_mvhashmap::Refusal;

/// Keys above those of all places.
const COMMITTING: u32 = u32::MAX - 1;
const FILLER: u32 = u32::MAX;

/// A value that the commit rule takes for a tag, but now and then any.
fn some_member(round: &mut Round, key: u32, tag: u32) -> Value {
    loop {
        let value = some_value(&mut round.random, true);
        let creates = value[0] >> 30 == CREATION;
        if creates != round.driver.model.is_committed(key, tag) || round.random.chance(20) {
            return value;
        }
    }
}

/// So many different tags anywhere in a set.
fn some_members(round: &mut Round, key: u32, count: usize) -> Vec<(u32, Value)> {
    let first = round.random.below(64);
    let step = 2 * round.random.below(32) + 1;
    let tags = (0..count as u32).map(|n| (first + n * step) % 64);
    tags.map(|tag| (tag, some_member(round, key, tag))).collect()
}

fn some_count(round: &mut Round) -> usize {
    let few = [0, 0, 1, 1, 2, 3, 5, 8];
    let all = [0, 1, 2, 3, 5, 8, 33, 64];
    let counts = if round.random.chance(16) { &all } else { &few };
    round.random.pick(counts)
}

fn put(round: &mut Round, (key, index): (u32, u32), tags: usize) -> Said {
    let members = some_members(round, key, tags);
    let incarnation = round.random.below(3);
    round.driver.ask(group_write(key, index, incarnation, &members))
}

fn take(round: &mut Round, (key, index): (u32, u32)) {
    for _ in 0..1 + round.random.below(8) / 7 {
        assert_eq!(round.driver.ask(group_remove(key, index)), Ok(vec![0]));
    }
}

/// A full store has no room for another update, not even an empty one.
fn is_full(round: &mut Round, absent: (u32, u32)) {
    assert_eq!(round.driver.model.free_group_units(), 0);
    assert_eq!(put(round, absent, 0), Err(Refusal::UnitsExhausted));
}

/// Updates of several sizes, until the last one fits exactly.
pub fn fill(round: &mut Round) {
    let places = round.places.all();
    for place in round.filled(&places) {
        let free = round.driver.model.free_group_units();
        if free == 0 {
            break;
        }
        let tags = some_count(round);
        if put(round, place, tags).is_err() {
            assert!(put(round, place, free - 1).is_ok(), "{} tags were to fit", free - 1);
        }
    }
    is_full(round, (FILLER, 0));
}

/// Updates in every second place shrink, and those between grow by all that is free then; and the
/// other way round. The store has all its units in use again and again, and one more is refused.
pub fn grow_and_shrink(round: &mut Round) {
    for shrinking in 0..2 {
        let held = round.driver.model.update_places();
        for (n, place) in round.filled(&held).into_iter().enumerate() {
            if n % 2 == shrinking {
                assert!(put(round, place, 0).is_ok(), "it has become smaller");
            } else {
                grow(round, place);
            }
        }
    }
    fill_up(round);
}

fn grow(round: &mut Round, place: (u32, u32)) {
    let most = round.driver.model.tags_at(place) + round.driver.model.free_group_units();
    if most < 64 {
        assert_eq!(put(round, place, most + 1), Err(Refusal::UnitsExhausted));
    }
    assert!(put(round, place, most.min(64)).is_ok(), "{most} tags were to fit");
}

/// Empty updates, one a unit, at indexes that are free.
fn fill_up(round: &mut Round) {
    let held = round.driver.model.update_places();
    let mut index = held.last().filter(|last| last.0 == FILLER).map_or(0, |last| last.1 + 1);
    while round.driver.model.free_group_units() > 0 {
        assert_eq!(put(round, (FILLER, index), 0), Ok(vec![0]));
        index += 1;
    }
    is_full(round, (FILLER, index));
}

/// What committing needs at a full store: creations need a unit each, deletions free one each, and
/// the count is that after the whole update.
pub fn finalize_at_full(round: &mut Round) {
    // Two updates of two and three tags, two committed values, two fillers.
    const UNITS: usize = 11;
    make_room(round, UNITS);
    let write = |round: &mut Round, index, members: &[(u32, Value)]| {
        round.driver.ask(group_write(COMMITTING, index, 0, members)).ok();
    };
    let mut said = vec![];
    let mut finalizes = |round: &mut Round, index| {
        let answer = round.driver.ask(finalize(COMMITTING, index));
        said.push(answer.map_or_else(|refusal| refusal.number(), |_| 0));
    };
    let created = exchanged(CREATION, 1);
    let deleted = exchanged(DELETION, 0);
    write(round, 1, &[(0, created), (63, created)]);
    finalizes(round, 1);
    write(round, 2, &[(0, deleted), (31, created), (63, exchanged(MODIFICATION, 2))]);
    fill_up(round);
    finalizes(round, 2);
    is_full(round, (COMMITTING, 9));
    write(round, 1, &[(0, created), (32, created)]);
    // Two units too few, then one, then none.
    finalizes(round, 1);
    for _ in 0..2 {
        let held = round.driver.model.update_places();
        held.last().into_iter().for_each(|&filler| take(round, filler));
        finalizes(round, 1);
    }
    fill_up(round);
    write(round, 2, &[(0, deleted), (31, deleted), (63, deleted)]);
    finalizes(round, 2);
    // Nothing is left to delete, and there is no such update.
    finalizes(round, 2);
    finalizes(round, 3);
    fill_up(round);
    if round.places.all().len() >= UNITS {
        assert_eq!(said, [0, 0, 14, 14, 0, 0, 11, 6], "{:?}", round.plan);
    }
}

fn make_room(round: &mut Round, units: usize) {
    let held = round.driver.model.update_places();
    for place in round.emptied(&held) {
        if round.driver.model.free_group_units() < units {
            take(round, place);
        }
    }
}

/// Room is made, and updates are finalised and written again, to modify and delete what they
/// committed.
pub fn finalize_all(round: &mut Round) {
    make_room(round, round.places.all().len() / 2);
    for _ in 0..3 {
        let held = round.driver.model.update_places();
        for place in round.filled(&held) {
            round.driver.ask(finalize(place.0, place.1)).ok();
            let tags = some_count(round);
            put(round, place, tags).ok();
        }
    }
}

/// Requests at random over the places and those between them.
pub fn mix(round: &mut Round) {
    for _ in 0..100 + 2 * round.places.all().len() {
        let place = round.places.some(&mut round.random);
        let (key, index) = place;
        let (tags, tag) = (some_count(round), round.random.below(64));
        match round.random.below(10) {
            0..=2 => put(round, place, tags),
            3 | 4 => round.driver.ask(group_remove(key, index)),
            5 | 6 => round.driver.ask(finalize(key, index)),
            7 => round.driver.ask(group_estimate(key, index)),
            8 => round.driver.ask(group_fetch(key, tag, index)),
            _ => round.driver.ask(last_committed(key)),
        }
        .ok();
    }
}

/// All updates are removed, and what is committed by finalised deletions.
pub fn empty(round: &mut Round) {
    let held = round.driver.model.update_places();
    for place in round.emptied(&held) {
        take(round, place);
    }
    while let Some(key) = committed_key(round) {
        let tags = round.driver.model.committed_tags(key);
        // Whatever is committed was once an update beside it, so there is room for one deletion.
        let most = tags.len().min(round.driver.model.free_group_units() - 1);
        let deleted = |&tag: &u32| (tag, exchanged(DELETION, 0));
        let members: Vec<(u32, Value)> = tags[..most].iter().map(deleted).collect();
        assert_eq!(round.driver.ask(group_write(key, 5, 0, &members)), Ok(vec![10 << 28]));
        assert!(round.driver.ask(finalize(key, 5)).is_ok());
        take(round, (key, 5));
    }
}

fn committed_key(round: &Round) -> Option<u32> {
    round.driver.model.committed_keys().next()
}
