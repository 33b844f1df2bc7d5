//! Lent stores with damaged words: a store is refused by 5 exactly if `common::valid` says that
//! its words break rule 5, whatever an accepted call leaves is valid again, and a data store that is
//! still valid answers what its words say.

mod common;

use common::lent::Lent;
use common::random::Random;
use common::valid::both_valid;
use common::valid::data::{entries_in, exchange_payloads, Cell, Entry};
use common::words::*;
use proved_mvhashmap::{Refusal, UNIT_WORDS};

/// Data with a base, writes of each kind, deltas, a shortcut and estimates, over two keys.
fn data_requests() -> Vec<Vec<u32>> {
    vec![
        base(1, raw(CREATION, 4)),
        write(1, 0, 3, value(MODIFICATION << 30 | 1 << 29 | 16, 9, 5, u128::MAX)),
        write(1, 1, 0, exchanged(DELETION, 0)),
        estimate(1, 1),
        write(2, 0, 0, numbered(100)),
        add_delta(2, 1, &delta(150, 20, 3, 10, PLUS)),
        materialize(2, 1),
        add_delta(2, 2, &minus(1, 150)),
        add_delta(2, u32::MAX - 1, &plus(u128::MAX, u128::MAX)),
        estimate(2, 2),
    ]
}

/// Groups with raw, exchanged and deleted bases, updates, an empty one, an estimate and committed
/// values, over two keys.
fn group_requests() -> Vec<Vec<u32>> {
    vec![
        group_base(1, &[(0, raw(CREATION, 4)), (31, raw(CREATION, 0)), (63, raw(CREATION, 16))]),
        exchange(1, 31, value(1 << 29 | 16, 7, 5, 12)),
        group_write(1, 0, 2, &[(0, exchanged(MODIFICATION, 5)), (5, exchanged(CREATION, 1))]),
        finalize(1, 0),
        group_write(1, 1, 1, &[]),
        group_write(2, 4, 0, &[(5, exchanged(DELETION, 0)), (6, numbered(6))]),
        group_estimate(2, 4),
    ]
}

/// Requests that 1 to 4 do not refuse, of every kind.
fn probes() -> Vec<Vec<u32>> {
    vec![
        last_committed(1),
        base(3, raw(CREATION, 4)),
        write(1, 0, 4, numbered(1)),
        add_delta(1, 5, &plus(1, 9)),
        estimate(2, 1),
        remove(1, 0),
        fetch(2, 3),
        materialize(2, 1),
        group_base(2, &[(1, raw(CREATION, 4))]),
        exchange(1, 0, exchanged(CREATION, 4)),
        group_write(1, 0, 0, &[(0, numbered(2))]),
        group_estimate(1, 0),
        group_remove(1, 0),
        group_fetch(1, 31, 0),
        group_size(1, 1),
        finalize(2, 4),
    ]
}

/// Data over several pages: more than are filled in order, and gaps from removals.
fn many_pages() -> Vec<Vec<u32>> {
    let writes = (0..95).map(|n| write(n * 37 % 95 / 8, n * 37 % 95 % 8, n, numbered(n.into())));
    let removals = (0..95).filter(|n| n % 3 == 0).map(|n| remove(n / 8, n % 8));
    let deltas = (0..12).map(|n| add_delta(n, 9, &plus(n as u128 + 1, 1000)));
    writes.chain(removals).chain(deltas).collect()
}

/// Valid stores: full, with room, of several pages, and empty ones.
fn stores() -> Vec<Lent> {
    vec![
        Lent::with_units(8, 15).after(&data_requests()).after(&group_requests()),
        Lent::with_units(10, 17).after(&data_requests()).after(&group_requests()),
        Lent::with_units(3, 3),
        Lent::with_units(9, 2).after(&data_requests()),
        Lent::with_units(2, 16).after(&group_requests()),
        Lent::with_units(1, 2).after(&[base(0, raw(DELETION, 0)), group_base(0, &[])]),
        Lent::with_units(96, 1).after(&many_pages()),
    ]
}

/// The greatest index that a request may name.
const LAST_INDEX: u32 = u32::MAX - 1;

/// How many of the stores that were tried broke rule 5, and how many did not.
#[derive(Default)]
struct Tried {
    damaged: usize,
    valid: usize,
    /// Changed entries that a fetch answered as the words say.
    said: usize,
}

/// Holds the fetch right above an entry to the entry. A delta without shortcut is answered by what is
/// below it, and the last index has no reader above it: nothing is asked of those.
fn says(lent: &Lent, (key, place): (u32, u32), entry: &Entry) -> bool {
    let answer = |kind: u32, words: &[u32]| Ok(request(kind, words));
    let expected = match &entry.cell {
        _ if place > LAST_INDEX => return false,
        _ if entry.estimate => answer(6, &[place - 1]),
        Cell::Write { value, .. } if place == 0 => answer(11, value),
        Cell::Write { incarnation, value } => {
            answer(1, &[&[place - 1, *incarnation], &value[..]].concat())
        }
        Cell::Shortcut(_, number) => answer(2, number),
        Cell::Delta(_) => return false,
    };
    assert_eq!(lent.clone().call(&fetch(key, place)), expected, "{key}, {place}: {entry:?}");
    true
}

impl Tried {
    /// Makes the call on a damaged copy and holds its result to the judgement.
    fn call(&mut self, damaged: &Lent, request: &[u32]) {
        let valid = both_valid(&damaged.data, &damaged.group);
        let mut lent = damaged.clone();
        let said = lent.call(request);
        let refused = said == Err(Refusal::DamagedStore);
        assert_eq!(refused, !valid, "{said:?} to {request:X?} on\n{}", shown(damaged));
        if refused {
            self.damaged += 1;
        } else {
            self.valid += 1;
            assert!(both_valid(&lent.data, &lent.group), "{request:X?} left\n{}", shown(&lent));
        }
    }

    /// The same for a change of a store: if it is still valid, a fetch right above each data entry
    /// that the change made other than it was answers what the words say now.
    fn change(&mut self, store: &Lent, damaged: &Lent, request: &[u32]) {
        self.call(damaged, request);
        if !both_valid(&damaged.data, &damaged.group) {
            return;
        }
        let before = entries_in(&store.data).unwrap();
        for (place, entry) in entries_in(&damaged.data).unwrap() {
            if before.get(&place) != Some(&entry) {
                self.said += usize::from(says(damaged, place, &entry));
            }
        }
    }

    /// A test that meets one verdict only would show nothing of the other.
    fn met_both(&self) {
        assert!(self.damaged > 0 && self.valid > 0, "{} and {}", self.damaged, self.valid);
    }
}

fn shown(lent: &Lent) -> String {
    let lines = |store: &[u32]| {
        store.chunks(UNIT_WORDS).map(|unit| format!("{unit:X?}\n")).collect::<String>()
    };
    format!("data\n{}group\n{}", lines(&lent.data), lines(&lent.group))
}

/// What a word is changed to.
fn changes(word: u32) -> impl Iterator<Item = u32> {
    let flips = (0..32).map(move |bit| word ^ 1 << bit);
    [0, 1, 2, 3, word.wrapping_add(1), word.wrapping_sub(1), u32::MAX].into_iter().chain(flips)
}

fn word_of(lent: &mut Lent, at: usize) -> &mut u32 {
    let data_words = lent.data.len();
    if at < data_words {
        &mut lent.data[at]
    } else {
        &mut lent.group[at - data_words]
    }
}

fn words_in(lent: &Lent) -> usize {
    lent.data.len() + lent.group.len()
}

#[test]
fn the_judgement_holds_of_whatever_the_library_made() {
    for lent in stores() {
        assert!(both_valid(&lent.data, &lent.group), "{}", shown(&lent));
    }
}

#[test]
fn every_word_changed_in_turn() {
    let mut said = 0;
    for store in stores() {
        let mut tried = Tried::default();
        let probes = probes();
        let mut requests = probes.iter().cycle();
        for at in 0..words_in(&store) {
            let mut damaged = store.clone();
            let word = *word_of(&mut damaged, at);
            for change in changes(word) {
                *word_of(&mut damaged, at) = change;
                tried.change(&store, &damaged, requests.next().unwrap());
            }
        }
        tried.met_both();
        said += tried.said;
    }
    assert!(said > 0);
}

#[test]
fn every_kind_of_request_on_every_word_flipped() {
    let store = &stores()[0];
    let mut tried = Tried::default();
    for at in 0..words_in(store) {
        let mut damaged = store.clone();
        *word_of(&mut damaged, at) ^= 1;
        for request in probes() {
            tried.call(&damaged, &request);
        }
    }
    tried.met_both();
}

#[test]
fn units_exchanged_copied_and_cleared() {
    for store in stores() {
        let mut tried = Tried::default();
        let probes = probes();
        let mut requests = probes.iter().cycle();
        for (from, to) in pairs_of_units(&store) {
            for damage in [exchange_units, copy_unit, clear_unit] {
                let mut damaged = store.clone();
                damage(&mut damaged, from, to);
                tried.call(&damaged, requests.next().unwrap());
            }
        }
        assert!(tried.valid > 0);
    }
}

/// Places of units in both stores one after the other.
fn pairs_of_units(store: &Lent) -> Vec<(usize, usize)> {
    let units = words_in(store) / UNIT_WORDS;
    (0..units).flat_map(|from| (0..units).map(move |to| (from, to))).collect()
}

fn exchange_units(lent: &mut Lent, from: usize, to: usize) {
    for word in 0..UNIT_WORDS {
        let one = *word_of(lent, from * UNIT_WORDS + word);
        let other = std::mem::replace(word_of(lent, to * UNIT_WORDS + word), one);
        *word_of(lent, from * UNIT_WORDS + word) = other;
    }
}

fn copy_unit(lent: &mut Lent, from: usize, to: usize) {
    for word in 0..UNIT_WORDS {
        *word_of(lent, to * UNIT_WORDS + word) = *word_of(lent, from * UNIT_WORDS + word);
    }
}

fn clear_unit(lent: &mut Lent, from: usize, to: usize) {
    for word in from.min(to) * UNIT_WORDS..from.max(to) * UNIT_WORDS {
        *word_of(lent, word) = 0;
    }
}

#[test]
fn several_words_changed_at_random() {
    let mut random = Random::seeded(5);
    let (stores, probes) = (stores(), probes());
    let mut tried = Tried::default();
    for _ in 0..40_000 {
        let mut damaged = stores[random.below(stores.len() as u32) as usize].clone();
        for _ in 0..1 + random.below(3) {
            let at = random.below(words_in(&damaged) as u32) as usize;
            let few = random.below(4);
            let near = word_of(&mut damaged, at).wrapping_add(few).wrapping_sub(2);
            let any = random.word();
            let flipped = *word_of(&mut damaged, at) ^ 1 << (any % 32);
            *word_of(&mut damaged, at) = random.pick(&[few, near, any, flipped]);
        }
        tried.call(&damaged, &probes[random.below(probes.len() as u32) as usize]);
    }
    tried.met_both();
}

#[test]
fn all_words_random_or_alike() {
    let mut random = Random::seeded(6);
    let mut tried = Tried::default();
    for words in [31, 32, 33, 64, 100, 320] {
        for request in probes() {
            let mut lent = Lent::with_words(words, words);
            tried.call(&lent, &request);
            for fill in [1, 2, u32::MAX] {
                lent.data.fill(fill);
                tried.call(&lent, &request);
                lent.group.fill(fill);
                tried.call(&lent, &request);
            }
            lent.data.fill_with(|| random.word());
            lent.group.fill_with(|| random.word());
            tried.call(&lent, &request);
        }
    }
    tried.met_both();
}

/// Nobody sees where an entry lies.
fn answer_alike(mut one: Lent, mut other: Lent) {
    assert!(one.data != other.data && entries_in(&one.data) == entries_in(&other.data));
    for request in probes() {
        assert_eq!(one.call(&request), other.call(&request), "{request:X?}");
        assert_eq!(entries_in(&one.data), entries_in(&other.data), "{request:X?}");
    }
}

#[test]
fn payloads_exchanged_with_their_numbers() {
    for store in stores() {
        let held = store.data[0] as usize;
        for (one, other) in (0..held).flat_map(|one| (0..one).map(move |other| (one, other))) {
            let mut exchanged = store.clone();
            exchange_payloads(&mut exchanged.data, one, other);
            answer_alike(store.clone(), exchanged);
        }
    }
}

#[test]
fn one_content_by_two_histories() {
    for units in [12, 64, 65, 96, 300] {
        let write = |n: u32| write(n / 5, n % 5, 1, numbered(n.into()));
        let (rising, falling) = (0..units - 1, (0..units - 1).rev());
        let one = Lent::with_units(units as usize, 1).after(&rising.map(write).collect::<Vec<_>>());
        let gone = [write(units * 5), remove(units, 0)];
        let two = Lent::with_units(units as usize, 1).after(&gone);
        answer_alike(one, two.after(&falling.map(write).collect::<Vec<_>>()));
    }
}
