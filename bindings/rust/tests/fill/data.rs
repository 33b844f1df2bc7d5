//! The phases of a round on the data store.

use crate::common::some::{some_delta, some_value};
use crate::common::words::*;
use crate::model::Said;
use crate::round::Round;
use proved_mvhashmap::Refusal;

fn put_write(round: &mut Round, (key, index): (u32, u32), incarnation: u32) -> Said {
    let value = some_value(&mut round.random, true);
    round.driver.ask(write(key, index, incarnation, value))
}

fn put_delta(round: &mut Round, (key, index): (u32, u32)) -> Said {
    let delta = some_delta(&mut round.random);
    round.driver.ask(add_delta(key, index, &delta))
}

/// A write or a delta where nothing is.
fn put(round: &mut Round, place: (u32, u32)) {
    let said = match round.random.chance(3) {
        true => put_delta(round, place),
        false => put_write(round, place, 0),
    };
    assert_eq!(said, Ok(vec![0]), "the store was to have room");
}

fn take(round: &mut Round, (key, index): (u32, u32)) {
    assert_eq!(round.driver.ask(remove(key, index)), Ok(vec![0]), "it was to be there");
    if round.random.chance(8) {
        let again = round.driver.ask(remove(key, index));
        assert_eq!(again, Err(Refusal::NothingThere));
    }
}

/// A full store has no room for another entry.
fn is_full(round: &mut Round, absent: (u32, u32)) {
    assert_eq!(put_write(round, absent, 0), Err(Refusal::UnitsExhausted));
    assert_eq!(put_delta(round, absent), Err(Refusal::UnitsExhausted));
}

pub fn fill(round: &mut Round) {
    let places = round.places.all();
    for place in round.filled(&places) {
        put(round, place);
    }
    is_full(round, round.places.between(0));
}

/// What takes another's place needs no unit: a full store takes it, if its incarnation is higher.
pub fn rewrite_at_full(round: &mut Round) {
    let held = round.driver.model.data_places();
    for place in round.filled(&held) {
        // Over a write 7, over a delta done.
        put_write(round, place, 0).ok();
        assert_eq!(put_write(round, place, 1), Ok(vec![0]));
        if round.random.chance(4) {
            assert_eq!(put_delta(round, place), Ok(vec![0]));
        }
        if round.random.chance(9) {
            assert_eq!(round.driver.ask(estimate(place.0, place.1)), Ok(vec![0]));
        }
    }
    is_full(round, round.places.between(0));
}

/// Every second entry makes room for one between it and the next.
pub fn refill_between(round: &mut Round) {
    let evens: Vec<usize> = (0..round.places.all().len()).step_by(2).collect();
    for n in round.emptied(&evens) {
        take(round, round.places.place(n));
    }
    for n in round.filled(&evens) {
        put(round, round.places.between(n));
    }
    is_full(round, round.places.place(0));
}

/// From the front, the back or the middle, as the round's order has it.
pub fn empty_half_and_refill(round: &mut Round) {
    let held = round.driver.model.data_places();
    let half = round.emptied(&held)[..held.len().div_ceil(2)].to_vec();
    for &place in &half {
        take(round, place);
    }
    for place in round.filled(&half) {
        put(round, place);
    }
    is_full(round, round.places.place(0));
}

/// Requests at random over the places and those between them.
pub fn mix(round: &mut Round) {
    for _ in 0..100 + 2 * round.places.all().len() {
        let place = round.places.some(&mut round.random);
        let (key, index) = place;
        let incarnation = round.random.below(4);
        match round.random.below(8) {
            0..=2 => put_write(round, place, incarnation),
            3 => put_delta(round, place),
            4 => round.driver.ask(estimate(key, index)),
            5 | 6 => round.driver.ask(remove(key, index)),
            _ => round.driver.ask(fetch(key, index)),
        }
        .ok();
    }
}

pub fn empty(round: &mut Round) {
    let held = round.driver.model.data_places();
    for place in round.emptied(&held) {
        take(round, place);
    }
}
