//! Slices of every length around the limits: answers, requests and stores.

mod common;

use common::lent::{units_of, Lent};
use common::valid::both_valid;
use common::words::*;
use proved_mvhashmap::{Refusal, ANSWER_WORDS, MAX_UNITS, UNIT_WORDS};

#[test]
fn answers_of_every_length() {
    let all_tags: Vec<(u32, Value)> = (0..64).map(|tag| (tag, raw(CREATION, tag))).collect();
    let mut lent = Lent::with_units(1, 129).after(&[group_base(1, &all_tags)]);
    for words in 0..=460 {
        // The longest answer and a short one.
        let longest = lent.call_with_answer(&last_committed(1), words);
        let short = lent.call_with_answer(&fetch(1, 0), words);
        if words < ANSWER_WORDS {
            assert_eq!(longest, Err(Refusal::AnswerTooShort), "{words}");
            assert_eq!(short, Err(Refusal::AnswerTooShort), "{words}");
        } else {
            assert_eq!(longest.unwrap().len(), ANSWER_WORDS);
            assert_eq!(short, Ok(vec![4 << 28]));
        }
    }
}

/// 01's table: the words after the head that a request's own words ask for; none where they are
/// too few to hold a set.
fn count_of(request: &[u32]) -> Option<usize> {
    let tags = |at: usize| {
        let set = request.get(at..at + 2)?;
        Some((set[0].count_ones() + set[1].count_ones()) as usize)
    };
    match request[0] >> 28 {
        0 => Some(1),
        1 => Some(8),
        2 => Some(10),
        3 => Some(19),
        8 => Some(3 + 7 * tags(2)?),
        9 => Some(9),
        10 => Some(5 + 7 * tags(4)?),
        13 => Some(3),
        _ => Some(2),
    }
}

fn count_is_right(request: &[u32]) -> bool {
    let handed_in = request.len() - 1;
    (request[0] & 0x0FFF_FFFF) as usize == handed_in && count_of(request) == Some(handed_in)
}

/// Words of every kind, with sets of several sizes where there is one.
fn samples() -> Vec<Vec<u32>> {
    let plain = (0..16).map(|kind| request(kind, &[1; 460]));
    let sets = [(0, 0), (1, 0), (0, 1), (u32::MAX, 0), (0, u32::MAX), (u32::MAX, u32::MAX)];
    let with_sets = sets.iter().flat_map(|&(low, high)| {
        let mut base = request(8, &[0; 460]);
        base[2..4].copy_from_slice(&[low, high]);
        let mut write = request(10, &[0; 460]);
        write[4..6].copy_from_slice(&[low, high]);
        [base, write]
    });
    plain.chain(with_sets).collect()
}

#[test]
fn requests_of_every_length() {
    let mut lent = Lent::with_units(2, 2);
    assert_eq!(lent.call(&[]), Err(Refusal::WrongCount));
    let mut right = 0;
    for sample in samples() {
        for words in 1..=460 {
            let mut request = sample[..words].to_vec();
            for counted in [words - 1, words, words.saturating_sub(2), 2, 0x0FFF_FFFF] {
                request[0] = sample[0] & 0xF000_0000 | counted as u32;
                let refused = lent.clone().call(&request) == Err(Refusal::WrongCount);
                assert_eq!(refused, !count_is_right(&request), "{request:X?}");
                right += usize::from(!refused);
            }
        }
    }
    assert!(right >= 28, "each sample has a right length, not {right}");
}

#[test]
fn every_kind_is_accepted_at_its_own_length() {
    let before = [
        base(1, numbered(1)),
        write(1, 0, 0, numbered(1)),
        add_delta(1, 1, &plus(1, 9)),
        group_base(1, &[(1, raw(CREATION, 1))]),
        group_write(1, 0, 0, &[]),
    ];
    let right = [
        last_committed(1),
        base(1, numbered(1)),
        write(1, 0, 1, numbered(1)),
        add_delta(1, 1, &plus(1, 9)),
        estimate(1, 0),
        remove(1, 0),
        fetch(1, 0),
        materialize(1, 1),
        group_base(1, &[(1, raw(CREATION, 1))]),
        exchange(1, 1, numbered(1)),
        group_write(1, 0, 0, &[(1, numbered(1))]),
        group_estimate(1, 0),
        group_remove(1, 0),
        group_fetch(1, 1, 0),
        group_size(1, 0),
        finalize(1, 0),
    ];
    let lent = Lent::with_units(8, 8).after(&before);
    for request in right {
        lent.clone().call(&request).unwrap();
        for words in (0..=460).filter(|&words| words != request.len()) {
            let mut other = request.clone();
            other.resize(words, 0);
            assert_eq!(lent.clone().call(&other), Err(Refusal::WrongCount), "{other:X?}");
        }
    }
}

/// Words past the last unit hold anything, before and after.
const FREE: u32 = 0xDEAD_BEEF;

/// Stores of so many words, with `FREE` past the last unit.
fn with_free_words(words: usize) -> Lent {
    let mut lent = Lent::with_words(words, words);
    let past = units_of(words) * UNIT_WORDS;
    lent.data[past..].fill(FREE);
    lent.group[past..].fill(FREE);
    lent
}

/// A store takes what its units hold and then refuses by 14; the free words stay.
fn takes_its_units(mut lent: Lent, held: usize) {
    let words = lent.data.len();
    let units = units_of(words);
    for index in held..units {
        lent.call(&write(1, index as u32, 0, numbered(1))).unwrap();
        lent.call(&group_write(1, index as u32, 0, &[])).unwrap();
    }
    let next = units as u32;
    let exhausted = Err(Refusal::UnitsExhausted);
    assert_eq!(lent.call(&write(1, next, 0, numbered(1))), exhausted, "{words}");
    assert_eq!(lent.call(&group_write(1, next, 0, &[])), exhausted, "{words}");
    assert!(both_valid(&lent.data, &lent.group), "{words}");
    if units > 0 {
        frees_a_unit(&mut lent, next);
    }
    for store in [&lent.data, &lent.group] {
        assert!(store[units * UNIT_WORDS..].iter().all(|&word| word == FREE), "{words}");
    }
}

/// Freed units serve again, also at the end of the store.
fn frees_a_unit(lent: &mut Lent, next: u32) {
    let done = Ok(vec![0]);
    assert_eq!(lent.call(&write(1, next - 1, 1, numbered(2))), done);
    assert_eq!(lent.call(&remove(1, 0)), done);
    assert_eq!(lent.call(&group_remove(1, 0)), done);
    assert_eq!(lent.call(&write(1, next, 0, numbered(1))), done);
    assert_eq!(lent.call(&group_write(1, next, 0, &[])), done);
    assert_eq!(lent.call(&remove(1, next)), done);
}

#[test]
fn stores_of_few_words() {
    for words in 0..=100 {
        takes_its_units(with_free_words(words), 0);
    }
}

/// Stores of so many units, full.
fn full(units: usize) -> Lent {
    let mut lent = Lent::with_units(units, units);
    for index in 0..units as u32 {
        lent.call(&write(1, index, 0, numbered(1))).unwrap();
        lent.call(&group_write(1, index, 0, &[])).unwrap();
    }
    lent
}

/// Full stores are made once for each number of units: filling one for each length would take long.
#[test]
fn stores_around_the_most_units() {
    let most = MAX_UNITS * UNIT_WORDS;
    for units in MAX_UNITS - 2..=MAX_UNITS {
        let full = full(units);
        for words in (most - 33..=most + 33).filter(|&words| units_of(words) == units) {
            let mut lent = with_free_words(words);
            let held = units * UNIT_WORDS;
            lent.data[..held].copy_from_slice(&full.data);
            lent.group[..held].copy_from_slice(&full.group);
            takes_its_units(lent, units);
        }
    }
}
