//! The rows on the data store.

use super::{fewer_operations, held, spread_keys, value};
use crate::scenario::Scenario;
use histories::rng::Rng;
use request::{value::CREATION, Delta, Request, Value};

/// The row whose spread is shown too.
pub const FETCH: &str = "fetch";
/// Entries of a key: 60 keys in a store of 512 units.
pub const ENTRIES: usize = 8;
/// Deltas above the write in the row that walks over them.
const DELTAS: usize = 14;
/// Timed operations of a round: too many for a branch predictor to learn the list.
const OPERATIONS: usize = 2048;
/// An entry of a key lies in each stretch of so many indexes.
const STRETCH: usize = 16;

/// A key and an index at which something is written.
pub type Place = (u32, u32);

pub fn all(units: usize) -> Vec<Scenario> {
    vec![fetch(units), rewrite(units), remove_and_write(units), fetch_over_deltas(units)]
}

pub fn fetch(units: usize) -> Scenario {
    let mut rng = Rng::new(1, units as u64);
    let places = places(&mut rng, held(units), ENTRIES);
    let timed = drawn(&mut rng, &places, OPERATIONS, |rng, (key, index)| {
        vec![Request::fetch(key, index + 1 + rng.below(STRETCH) as u32)]
    });
    Scenario::of(FETCH, units, written(&places), timed)
}

/// Over an entry that is there, with a higher incarnation each time.
fn rewrite(units: usize) -> Scenario {
    let mut rng = Rng::new(2, units as u64);
    let places = places(&mut rng, held(units), ENTRIES);
    let mut incarnation = 0;
    let timed = drawn(&mut rng, &places, OPERATIONS, |rng, (key, index)| {
        incarnation += 1;
        vec![Request::write(key, index, incarnation, value(rng.word()))]
    });
    Scenario::of("rewrite", units, written(&places), timed)
}

fn remove_and_write(units: usize) -> Scenario {
    let mut rng = Rng::new(3, units as u64);
    let places = places(&mut rng, held(units), ENTRIES);
    let timed = drawn(&mut rng, &places, fewer_operations(units), |rng, (key, index)| {
        vec![Request::remove(key, index), Request::write(key, index, 1, value(rng.word()))]
    });
    let pairs = Scenario::of("remove and write", units, written(&places), timed);
    Scenario { requests_each: 2, ..pairs }
}

/// Each key has a write at its lowest index and deltas above; a fetch walks over all of them.
fn fetch_over_deltas(units: usize) -> Scenario {
    let mut rng = Rng::new(4, units as u64);
    let places = places(&mut rng, held(units), DELTAS + 1);
    let setup = places.chunks(DELTAS + 1).flat_map(deltas_over_a_write).collect();
    let highest: Vec<Place> =
        places.chunks_exact(DELTAS + 1).map(|of_key| of_key[DELTAS]).collect();
    let timed = drawn(&mut rng, &highest, OPERATIONS, |_, (key, index)| {
        vec![Request::fetch(key, index + 1)]
    });
    Scenario::of("fetch over 14 deltas", units, setup, timed)
}

fn deltas_over_a_write(places: &[Place]) -> Vec<Request> {
    let number = Value::exchanged(CREATION, 16).number(1 << 70);
    let delta = Delta::plus(3, u128::MAX / 2, 5, 4);
    let mut requests = vec![];
    for (n, (key, index)) in places.iter().enumerate() {
        requests.push(match n {
            0 => Request::write(*key, *index, 0, number),
            _ => Request::delta(*key, *index, delta),
        });
    }
    requests
}

/// Key after key, the indexes of a key rising.
pub fn places(rng: &mut Rng, entries: usize, of_key: usize) -> Vec<Place> {
    let keys = spread_keys(rng, entries.div_ceil(of_key));
    (0..entries)
        .map(|n| (keys[n / of_key], (n % of_key * STRETCH + rng.below(STRETCH)) as u32))
        .collect()
}

pub fn written(places: &[Place]) -> Vec<Request> {
    places.iter().map(|(key, index)| Request::write(*key, *index, 0, value(*index))).collect()
}

/// Operations at places drawn at random.
fn drawn(
    rng: &mut Rng,
    places: &[Place],
    operations: usize,
    mut operation: impl FnMut(&mut Rng, Place) -> Vec<Request>,
) -> Vec<Request> {
    let mut requests = vec![];
    for _ in 0..operations {
        let place = rng.pick(places);
        requests.extend(operation(rng, place));
    }
    requests
}
