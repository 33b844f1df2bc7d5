//! Random requests: the open call on lent stores, a map under its lock and a map alone answer the
//! same, and the lent stores stay valid.

mod common;

use common::lent::{answered, Lent, BLANK};
use common::random::Random;
use common::some::{some_delta, some_value};
use common::valid::both_valid;
use common::words::*;
use proved_mvhashmap::MVHashMap;

const UNITS: usize = 24;
const HISTORIES: u64 = 600;
const REQUESTS: usize = 200;

/// Both ends of both words of a set.
const TAGS: [u32; 4] = [0, 31, 32, 63];

fn some_members(random: &mut Random, exchanged: bool) -> Vec<(u32, Value)> {
    let mut members = vec![];
    for tag in TAGS {
        if random.chance(3) {
            members.push((tag, some_value(random, exchanged)));
        }
    }
    members
}

/// A request over few keys, indexes and tags, so that requests meet; now and then a word is off.
fn some_request(random: &mut Random) -> Vec<u32> {
    let key = random.below(2);
    let index = if random.chance(30) { u32::MAX - random.below(3) } else { random.below(5) };
    let tag = random.pick(&TAGS);
    let incarnation = random.below(4);
    let mut request = match random.below(16) {
        0 => last_committed(key),
        1 => base(key, some_value(random, key == 1)),
        2 => write(key, index, incarnation, some_value(random, true)),
        3 => add_delta(key, index, &some_delta(random)),
        4 => estimate(key, index),
        5 => remove(key, index),
        6 => fetch(key, index),
        7 => materialize(key, index),
        8 => group_base(key, &some_members(random, false)),
        9 => exchange(key, tag, some_value(random, true)),
        10 => group_write(key, index, incarnation, &some_members(random, true)),
        11 => group_estimate(key, index),
        12 => group_remove(key, index),
        13 => group_fetch(key, tag, index),
        14 => group_size(key, index),
        _ => finalize(key, index),
    };
    if random.chance(20) {
        let at = random.below(request.len() as u32) as usize;
        request[at] ^= 1 << random.below(32);
    }
    request
}

#[test]
fn the_calls_agree() {
    let mut met = [0; 15];
    for seed in 0..HISTORIES {
        let mut random = Random::seeded(seed);
        let mut lent = Lent::with_units(UNITS, UNITS);
        let shared = MVHashMap::with_units(UNITS, UNITS);
        let mut alone = MVHashMap::with_units(UNITS, UNITS);
        for _ in 0..REQUESTS {
            let request = some_request(&mut random);
            let expected = lent.call(&request);
            let name = || format!("{request:X?}");
            let mut answer = BLANK;
            let said = shared.request(&request, &mut answer);
            assert_eq!(answered(said, &answer, name), expected, "{request:X?}");
            answer = BLANK;
            let said = alone.request_mut(&request, &mut answer);
            assert_eq!(answered(said, &answer, name), expected, "{request:X?}");
            assert!(both_valid(&lent.data, &lent.group), "{request:X?}");
            met[expected.map_or_else(|refusal| refusal.number() as usize, |_| 0)] += 1;
        }
    }
    for (number, count) in met.iter().enumerate() {
        // 1 needs a short answer slice and 5 a damaged store.
        assert_eq!(*count < 10, matches!(number, 1 | 5), "{number}: {met:?}");
    }
}
