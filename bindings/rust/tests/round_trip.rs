//! Random values, deltas and sets of tags written by typed functions and read back equal; and the
//! words that the typed functions send are those of the README's table.

mod common;

use common::random::Random;
use common::words;
use proved_mvhashmap::*;
use std::collections::BTreeMap;

const ROUNDS: u32 = 3000;
const KEYS: [Key; 4] = [0, 1, 0x8000_0000, u32::MAX];

fn write_op(random: &mut Random) -> WriteOp {
    let kind =
        random.pick(&[WriteOpKind::Creation, WriteOpKind::Modification, WriteOpKind::Deletion]);
    let handle = random.word();
    match (kind, random.below(3)) {
        (WriteOpKind::Deletion, _) => WriteOp::deletion(handle),
        (kind, 0) => WriteOp::bytes(kind, random.below(1_048_577), handle),
        (kind, 1) => WriteOp::bytes(kind, random.pick(&[0, 1, 15, 17, 1_048_576]), handle),
        (kind, _) => WriteOp::number(kind, random.number(), handle),
    }
}

fn layout(random: &mut Random) -> Option<Layout> {
    let word = random.word();
    random.pick(&[None, Layout::new(word), Layout::new(1), Layout::new(u32::MAX)])
}

/// A valid delta: −L ≤ u ≤ H ≤ M and L ≤ M.
fn delta_op(random: &mut Random) -> DeltaOp {
    let max_value = random.number();
    let within = |random: &mut Random, bound: u128| match bound {
        u128::MAX => random.number(),
        _ => random.number() % (bound + 1),
    };
    let high = within(random, max_value);
    let low = within(random, max_value);
    let update = match random.chance(2) && low > 0 {
        true => SignedU128::Negative(within(random, low).max(1)),
        false => SignedU128::Positive(within(random, high)),
    };
    DeltaOp {
        max_value,
        max_achieved_positive_delta: high,
        min_achieved_negative_delta: low,
        update,
    }
}

fn index(random: &mut Random) -> TxnIndex {
    let any = random.below(u32::MAX - 2);
    random.pick(&[0, 1, any, u32::MAX - 2])
}

#[test]
fn a_write_is_read_back() {
    let mut random = Random::seeded(1);
    for _ in 0..ROUNDS {
        let map = MVHashMap::with_units(2, 0);
        let (key, at, incarnation) = (random.pick(&KEYS), index(&mut random), random.word());
        let (value, layout) = (write_op(&mut random), layout(&mut random));
        map.data().write(key, at, incarnation, value, layout).unwrap();
        let written = ValueWithLayout::Exchanged(value, layout);
        let found = map.data().fetch_data(key, at + 1);
        assert_eq!(found, Ok(MVDataOutput::Versioned(Ok((at, incarnation)), written)));
    }
}

#[test]
fn a_base_is_read_back() {
    let mut random = Random::seeded(2);
    for _ in 0..ROUNDS {
        let map = MVHashMap::with_units(2, 0);
        let (key, value) = (random.pick(&KEYS), write_op(&mut random));
        let base = match random.chance(2) {
            true => ValueWithLayout::RawFromStorage(value),
            false => ValueWithLayout::Exchanged(value, layout(&mut random)),
        };
        map.data().set_base_value(key, base).unwrap();
        let found = map.data().fetch_data(key, index(&mut random));
        assert_eq!(found, Ok(MVDataOutput::Versioned(Err(StorageVersion), base)));
    }
}

#[test]
fn a_delta_is_read_back() {
    let mut random = Random::seeded(3);
    for _ in 0..ROUNDS {
        let map = MVHashMap::with_units(2, 0);
        let (key, at, delta) = (random.pick(&KEYS), index(&mut random), delta_op(&mut random));
        map.data().add_delta(key, at, delta).unwrap();
        assert_eq!(map.data().fetch_data(key, at + 1), Err(MVDataError::Unresolved(delta)));
    }
}

/// Applying a delta to a number, by 01's text, against the store's answer and its shortcut.
#[test]
fn a_delta_is_applied() {
    let mut random = Random::seeded(4);
    for _ in 0..ROUNDS {
        let map = MVHashMap::with_units(2, 0);
        let (base, delta) = (random.number(), delta_op(&mut random));
        map.data().write(1, 0, 0, WriteOp::number(WriteOpKind::Creation, base, 0), None).unwrap();
        map.data().add_delta(1, 1, delta).unwrap();
        let top = base.checked_add(delta.max_achieved_positive_delta);
        let fits = base >= delta.min_achieved_negative_delta
            && top.is_some_and(|top| top <= delta.max_value);
        let sum = match delta.update {
            SignedU128::Positive(size) => base.wrapping_add(size),
            SignedU128::Negative(size) => base.wrapping_sub(size),
        };
        let (read, shortcut) = match fits {
            true => (Ok(MVDataOutput::Resolved(sum)), Ok(Materialized::Resolved(sum))),
            false => (Err(MVDataError::DeltaApplicationFailure), Err(Refusal::NotMaterializable)),
        };
        assert_eq!(map.data().fetch_data(1, 2), read);
        assert_eq!(map.data().materialize_delta(1, 1), shortcut);
        assert_eq!(map.data().fetch_data(1, 2), read);
    }
}

fn tags(random: &mut Random) -> Vec<Tag> {
    let one_in = random.pick(&[1, 2, 8, 40]);
    (0..64).filter(|_| random.chance(one_in)).map(|n| Tag::new(n).unwrap()).collect()
}

#[test]
fn a_group_update_is_read_back() {
    let mut random = Random::seeded(5);
    for _ in 0..ROUNDS / 10 {
        let map = MVHashMap::with_units(0, 70);
        let group = map.group_data();
        let (key, at, incarnation) = (random.pick(&KEYS), index(&mut random), random.word());
        let tags = tags(&mut random);
        let values: BTreeMap<Tag, (WriteOp, Option<Layout>)> =
            tags.iter().map(|&tag| (tag, (write_op(&mut random), layout(&mut random)))).collect();
        // In falling order: the order of an iterator says nothing.
        let outside = group.write(key, at, incarnation, values.clone().into_iter().rev());
        assert_eq!(outside, Ok(!tags.is_empty()));
        for tag in (0..64).map(|n| Tag::new(n).unwrap()) {
            let expected = values.get(&tag).ok_or(MVGroupError::Uninitialized);
            let expected = expected.map(|&(value, layout)| {
                (Ok((at, incarnation)), ValueWithLayout::Exchanged(value, layout))
            });
            assert_eq!(group.fetch_tagged_data(key, tag, at + 1), expected);
        }
    }
}

#[test]
fn a_group_base_is_read_back() {
    let mut random = Random::seeded(6);
    for _ in 0..ROUNDS / 10 {
        let map = MVHashMap::with_units(0, 140);
        let key = random.pick(&KEYS);
        let values: Vec<(Tag, WriteOp)> = tags(&mut random)
            .into_iter()
            .map(|tag| (tag, WriteOp { kind: WriteOpKind::Creation, ..write_op(&mut random) }))
            .collect();
        map.group_data().set_raw_base_values(key, values.iter().rev().copied()).unwrap();
        let raw = |&(tag, value)| (tag, ValueWithLayout::RawFromStorage(value));
        let expected: Vec<_> = values.iter().map(raw).collect();
        assert_eq!(map.group_data().get_last_committed_group(key), Ok(expected));
    }
}

/// Values that break a rule are refused by 3, however far a field is out of its range.
#[test]
fn bad_fields_are_refused_and_not_hidden() {
    let map = MVHashMap::with_units(4, 4);
    let good = WriteOp::bytes(WriteOpKind::Creation, 4, 0);
    let long = [1_048_577, 1 << 28, 1 << 29, 1 << 30, 1 << 31, u32::MAX];
    let lengths = long.into_iter().map(|length| WriteOp { length, ..good });
    let others = [
        WriteOp { number: 1, ..good },
        WriteOp { length: 1, ..WriteOp::deletion(0) },
        WriteOp { number: 1 << 127, ..WriteOp::deletion(0) },
    ];
    for value in lengths.chain(others) {
        let refused = map.data().write(1, 0, 0, value, None);
        assert_eq!(refused, Err(Refusal::BadField), "{value:?}");
        let base = ValueWithLayout::RawFromStorage(value);
        assert_eq!(map.data().set_base_value(1, base), Err(Refusal::BadField), "{value:?}");
    }
    let delta = |update| DeltaOp { update, ..DeltaOp::addition(5, 9) };
    for update in [SignedU128::Negative(0), SignedU128::Negative(1), SignedU128::Positive(6)] {
        let refused = map.data().add_delta(1, 0, delta(update));
        assert_eq!(refused, Err(Refusal::BadField), "{update:?}");
    }
    assert_eq!(DeltaOp::subtraction(0, 9), DeltaOp::addition(0, 9));
}

/// What typed functions leave in a store is read by requests in words.
#[test]
fn typed_functions_and_words_meet() {
    let map = MVHashMap::with_units(8, 16);
    let (data, group) = (map.data(), map.group_data());
    let tag = Tag::new(33).unwrap();
    let layout = Layout::new(3);
    data.write(1, 2, 3, WriteOp::number(WriteOpKind::Modification, 1 << 96 | 7, 9), layout)
        .unwrap();
    data.add_delta(2, 2, DeltaOp::subtraction(1 << 64, 1 << 65)).unwrap();
    group.set_raw_base_values(1, [(tag, WriteOp::bytes(WriteOpKind::Creation, 6, 8))]).unwrap();
    group.write(1, 4, 5, [(tag, (WriteOp::deletion(7), layout))]).unwrap();
    let ask = |request: Vec<u32>| {
        let mut answer = [0; ANSWER_WORDS];
        map.request(&request, &mut answer).unwrap();
        answer[..=(answer[0] & 0xFFF) as usize].to_vec()
    };
    let value = words::value(1 << 30 | 1 << 29 | 16, 3, 9, 1 << 96 | 7);
    assert_eq!(ask(words::fetch(1, 3)), words::request(1, &[&[2, 3], &value[..]].concat()));
    let delta = words::minus(1 << 64, 1 << 65);
    assert_eq!(ask(words::fetch(2, 3)), words::request(3, &delta));
    let value = words::value(6, 0, 8, 0);
    assert_eq!(ask(words::group_fetch(1, 33, 4)), words::request(11, &value));
    let value = words::value(2 << 30 | 1 << 29, 3, 7, 0);
    let expected = words::request(1, &[&[4, 5], &value[..]].concat());
    assert_eq!(ask(words::group_fetch(1, 33, 5)), expected);
}
