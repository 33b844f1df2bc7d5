//! Filling the empty data store to its last unit and emptying it again, in three orders.

use super::data::{places, written, Place, ENTRIES};
use crate::scenario::Scenario;
use histories::rng::Rng;
use request::Request;

/// A small store is filled and emptied again and again: a round must be long for the clock.
const LEAST_REQUESTS: usize = 512;

pub fn all(units: usize) -> Vec<Scenario> {
    vec![
        row("fill and empty at random", units, shuffle),
        row("fill and empty rising", units, |_, places| places.sort_unstable()),
        row("fill and empty falling", units, |_, places| {
            places.sort_unstable_by(|a, b| b.cmp(a));
        }),
    ]
}

/// What is written is gone at the end, so the contestants are compared where the store is full.
fn row(row: &'static str, units: usize, order: fn(&mut Rng, &mut [Place])) -> Scenario {
    let mut rng = Rng::new(7, units as u64);
    let mut places = places(&mut rng, units, ENTRIES);
    let mut timed = vec![];
    while timed.len() < LEAST_REQUESTS {
        order(&mut rng, &mut places);
        timed.extend(written(&places));
        order(&mut rng, &mut places);
        timed.extend(places.iter().map(|(key, index)| Request::remove(*key, *index)));
    }
    let full = timed.len() - units;
    Scenario { look_after: Some(full), ..Scenario::of(row, units, vec![], timed) }
}

fn shuffle(rng: &mut Rng, places: &mut [Place]) {
    for n in (1..places.len()).rev() {
        places.swap(n, rng.below(n + 1));
    }
}
