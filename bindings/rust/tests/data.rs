//! The seven requests of the data store by their typed functions, with 01's cases.

use proved_mvhashmap::*;
use MVDataError::{Dependency, Uninitialized, Unresolved};
use ValueWithLayout::{Exchanged, RawFromStorage};
use WriteOpKind::{Creation, Modification};

const KEY: Key = 7;
const LAST: TxnIndex = 4_294_967_294;

fn map() -> MVHashMap {
    MVHashMap::with_units(64, 0)
}

fn number(n: u128) -> WriteOp {
    WriteOp::number(Creation, n, 5)
}

fn bytes(length: u32) -> WriteOp {
    WriteOp::bytes(Modification, length, 6)
}

fn layout(n: u32) -> Option<Layout> {
    Layout::new(n)
}

type Read = Result<MVDataOutput, MVDataError>;

fn versioned(index: TxnIndex, incarnation: Incarnation, value: ValueWithLayout) -> Read {
    Ok(MVDataOutput::Versioned(Ok((index, incarnation)), value))
}

fn at_base(value: ValueWithLayout) -> Read {
    Ok(MVDataOutput::Versioned(Err(StorageVersion), value))
}

fn resolved(n: u128) -> Read {
    Ok(MVDataOutput::Resolved(n))
}

fn refused(refusal: Refusal) -> Read {
    Err(MVDataError::Refused(refusal))
}

/// A map with 100 written at 0 and deltas from 1 on.
fn hundred_under(deltas: &[DeltaOp]) -> MVHashMap {
    let map = map();
    map.data().write(KEY, 0, 0, number(100), None).unwrap();
    add(&map, 1, deltas);
    map
}

fn add(map: &MVHashMap, first: TxnIndex, deltas: &[DeltaOp]) {
    for (index, delta) in (first..).zip(deltas) {
        map.data().add_delta(KEY, index, *delta).unwrap();
    }
}

#[test]
fn a_read_finds_the_greatest_write_below_it() {
    let map = map();
    let data = map.data();
    data.write(KEY, 3, 1, number(30), None).unwrap();
    data.write(KEY, 5, 2, WriteOp::deletion(9), layout(4)).unwrap();
    data.write(KEY + 1, 4, 0, number(40), None).unwrap();
    assert_eq!(data.fetch_data(KEY, 3), Err(Uninitialized));
    assert_eq!(data.fetch_data(KEY, 4), versioned(3, 1, Exchanged(number(30), None)));
    assert_eq!(data.fetch_data(KEY, 5), versioned(3, 1, Exchanged(number(30), None)));
    let deleted = Exchanged(WriteOp::deletion(9), layout(4));
    assert_eq!(data.fetch_data(KEY, LAST), versioned(5, 2, deleted));
    assert_eq!(deleted.bytes_len(), None);
}

#[test]
fn a_delta_is_applied_to_the_write_below() {
    let map = hundred_under(&[DeltaOp::addition(20, 150)]);
    assert_eq!(map.data().fetch_data(KEY, 2), resolved(120));
    assert_eq!(map.data().fetch_data(KEY, 1), versioned(0, 0, Exchanged(number(100), None)));
    add(&map, 2, &[DeltaOp::subtraction(30, 150)]);
    assert_eq!(map.data().fetch_data(KEY, 3), resolved(90));
}

#[test]
fn a_delta_that_leaves_its_limit_fails() {
    let map = hundred_under(&[DeltaOp::addition(20, 119)]);
    assert_eq!(map.data().fetch_data(KEY, 2), Err(MVDataError::DeltaApplicationFailure));
    let map = hundred_under(&[DeltaOp::subtraction(101, 150)]);
    assert_eq!(map.data().fetch_data(KEY, 2), Err(MVDataError::DeltaApplicationFailure));
}

#[test]
fn a_deletion_is_versioned_under_deltas_that_fail_to_merge() {
    let map = map();
    map.data().write(KEY, 0, 0, WriteOp::deletion(1), None).unwrap();
    add(&map, 1, &[DeltaOp::addition(1, 100), DeltaOp::addition(1, 200)]);
    let deleted = Exchanged(WriteOp::deletion(1), None);
    assert_eq!(map.data().fetch_data(KEY, 3), versioned(0, 0, deleted));
}

#[test]
fn deltas_alone_are_unresolved() {
    let map = map();
    add(&map, 1, &[DeltaOp::addition(20, 150)]);
    assert_eq!(map.data().fetch_data(KEY, 2), Err(Unresolved(DeltaOp::addition(20, 150))));
    add(&map, 2, &[DeltaOp::subtraction(50, 150)]);
    let merged = DeltaOp {
        max_value: 150,
        max_achieved_positive_delta: 20,
        min_achieved_negative_delta: 30,
        update: SignedU128::Negative(30),
    };
    assert_eq!(map.data().fetch_data(KEY, 3), Err(Unresolved(merged)));
}

#[test]
fn the_order_of_merging_decides_failure() {
    let map = map();
    let limit = 100;
    let deltas = [(20, false), (50, true), (51, true)].map(|(n, up)| match up {
        true => DeltaOp::addition(n, limit),
        false => DeltaOp::subtraction(n, limit),
    });
    add(&map, 1, &deltas);
    assert_eq!(map.data().fetch_data(KEY, 4), Err(MVDataError::DeltaApplicationFailure));
}

#[test]
fn a_write_over_a_write_needs_a_higher_incarnation() {
    let map = map();
    let data = map.data();
    data.write(KEY, 1, 3, number(1), None).unwrap();
    for incarnation in [0, 2, 3] {
        let again = data.write(KEY, 1, incarnation, number(2), None);
        assert_eq!(again, Err(Refusal::IncarnationNotHigher));
    }
    data.mark_estimate(KEY, 1).unwrap();
    let again = data.write(KEY, 1, 3, number(2), None);
    assert_eq!(again, Err(Refusal::IncarnationNotHigher));
    data.write(KEY, 1, 4, number(2), None).unwrap();
    assert_eq!(data.fetch_data(KEY, 2), versioned(1, 4, Exchanged(number(2), None)));
}

#[test]
fn a_delta_replaces_and_is_replaced_by_any_incarnation() {
    let map = map();
    let data = map.data();
    data.write(KEY, 1, 3, number(1), None).unwrap();
    data.add_delta(KEY, 1, DeltaOp::addition(2, 9)).unwrap();
    assert_eq!(data.fetch_data(KEY, 2), Err(Unresolved(DeltaOp::addition(2, 9))));
    data.add_delta(KEY, 1, DeltaOp::addition(3, 9)).unwrap();
    assert_eq!(data.fetch_data(KEY, 2), Err(Unresolved(DeltaOp::addition(3, 9))));
    data.write(KEY, 1, 0, number(4), None).unwrap();
    assert_eq!(data.fetch_data(KEY, 2), versioned(1, 0, Exchanged(number(4), None)));
}

#[test]
fn an_estimate_is_a_dependency_and_a_removal_forgets() {
    let map = hundred_under(&[DeltaOp::addition(20, 150)]);
    let data = map.data();
    data.mark_estimate(KEY, 1).unwrap();
    assert_eq!(data.fetch_data(KEY, 2), Err(Dependency(1)));
    data.mark_estimate(KEY, 0).unwrap();
    assert_eq!(data.fetch_data(KEY, 1), Err(Dependency(0)));
    data.remove(KEY, 1).unwrap();
    assert_eq!(data.fetch_data(KEY, 2), Err(Dependency(0)));
    data.remove(KEY, 0).unwrap();
    assert_eq!(data.fetch_data(KEY, 2), Err(Uninitialized));
    for nothing in [data.mark_estimate(KEY, 0), data.remove(KEY, 0)] {
        assert_eq!(nothing, Err(Refusal::NothingThere));
    }
}

#[test]
fn a_later_base_agrees_with_a_raw_one() {
    let map = map();
    let data = map.data();
    let first = RawFromStorage(bytes(4));
    data.set_base_value(KEY, first).unwrap();
    data.set_base_value(KEY, RawFromStorage(WriteOp::bytes(Creation, 4, 99))).unwrap();
    for other in [bytes(5), bytes(0), WriteOp::deletion(6)] {
        let differs = data.set_base_value(KEY, RawFromStorage(other));
        assert_eq!(differs, Err(Refusal::BaseDiffers));
    }
    assert_eq!(data.fetch_data(KEY, 0), at_base(first));
    let exchanged = Exchanged(bytes(9), layout(3));
    data.set_base_value(KEY, exchanged).unwrap();
    assert_eq!(data.fetch_data(KEY, 0), at_base(exchanged));
    data.set_base_value(KEY, RawFromStorage(bytes(1))).unwrap();
    assert_eq!(data.fetch_data(KEY, 0), at_base(exchanged));
}

#[test]
fn a_later_base_agrees_with_an_exchanged_one() {
    let map = map();
    let data = map.data();
    let with = Exchanged(bytes(9), layout(3));
    data.set_base_value(KEY, with).unwrap();
    data.set_base_value(KEY, Exchanged(bytes(1), layout(4))).unwrap();
    let differs = data.set_base_value(KEY, Exchanged(bytes(9), None));
    assert_eq!(differs, Err(Refusal::BaseDiffers));
    assert_eq!(data.fetch_data(KEY, 0), at_base(with));

    let without = Exchanged(WriteOp::deletion(2), None);
    data.set_base_value(KEY + 1, without).unwrap();
    data.set_base_value(KEY + 1, Exchanged(WriteOp::deletion(3), None)).unwrap();
    for other in [Exchanged(bytes(0), None), Exchanged(WriteOp::deletion(2), layout(1))] {
        assert_eq!(data.set_base_value(KEY + 1, other), Err(Refusal::BaseDiffers));
    }
    assert_eq!(data.fetch_data(KEY + 1, 0), at_base(without));
}

#[test]
fn a_delta_needs_a_number_without_a_layout_below_it() {
    let cases = [
        (number(1), layout(3), Refusal::LayoutUnderDelta),
        (WriteOp::deletion(1), layout(3), Refusal::LayoutUnderDelta),
        (bytes(15), None, Refusal::NoNumberUnderDelta),
    ];
    for (value, layout, refusal) in cases {
        let map = map();
        map.data().write(KEY, 0, 0, value, layout).unwrap();
        add(&map, 1, &[DeltaOp::addition(1, 9)]);
        assert_eq!(map.data().fetch_data(KEY, 2), refused(refusal));
        assert_eq!(map.data().materialize_delta(KEY, 1), Err(refusal));
        add(&map, 2, &[DeltaOp::addition(1, 8)]);
        assert_eq!(map.data().fetch_data(KEY, 3), refused(refusal), "after a failed merge");
    }
}

#[test]
fn a_base_is_a_number_under_a_delta() {
    let map = map();
    map.data().set_base_value(KEY, RawFromStorage(number(1))).unwrap();
    add(&map, 0, &[DeltaOp::addition(1, 9)]);
    assert_eq!(map.data().fetch_data(KEY, 1), resolved(2));
}

#[test]
fn materializing_records_a_shortcut() {
    let map = hundred_under(&[DeltaOp::addition(20, 150), DeltaOp::addition(1, 160)]);
    let data = map.data();
    let failure = Err(MVDataError::DeltaApplicationFailure);
    assert_eq!(data.fetch_data(KEY, 3), failure, "the limits differ");
    for _ in 0..2 {
        assert_eq!(data.materialize_delta(KEY, 1), Ok(Materialized::Resolved(120)));
    }
    assert_eq!(data.fetch_data(KEY, 3), resolved(121), "from the shortcut");
    data.remove(KEY, 0).unwrap();
    assert_eq!(data.fetch_data(KEY, 2), resolved(120));
    data.add_delta(KEY, 1, DeltaOp::addition(20, 150)).unwrap();
    let unresolved = Err(Unresolved(DeltaOp::addition(20, 150)));
    assert_eq!(data.fetch_data(KEY, 2), unresolved, "a new delta has no shortcut");
}

#[test]
fn materializing_without_a_value_answers_the_delta() {
    let map = map();
    add(&map, 1, &[DeltaOp::addition(20, 150)]);
    let unresolved = Ok(Materialized::Unresolved(DeltaOp::addition(20, 150)));
    for index in [1, 2, 90] {
        assert_eq!(map.data().materialize_delta(KEY, index), unresolved);
    }
    assert_eq!(map.data().materialize_delta(KEY, 0), Err(Refusal::NotMaterializable));
}

#[test]
fn materializing_needs_a_delta_there() {
    let map = hundred_under(&[DeltaOp::addition(20, 150), DeltaOp::addition(90, 150)]);
    let data = map.data();
    assert_eq!(data.materialize_delta(KEY, 0), Err(Refusal::NotMaterializable), "a write");
    assert_eq!(data.materialize_delta(KEY, 2), Err(Refusal::NotMaterializable), "a failure");
    data.remove(KEY, 2).unwrap();
    assert_eq!(data.materialize_delta(KEY, 2), Err(Refusal::NothingThere));
    data.mark_estimate(KEY, 1).unwrap();
    assert_eq!(data.materialize_delta(KEY, 1), Err(Refusal::NotMaterializable), "an estimate");
    let nothing = data.materialize_delta(KEY + 1, LAST - 1);
    assert_eq!(nothing, Err(Refusal::NotMaterializable));
    assert_eq!(data.materialize_delta(KEY + 1, LAST), Err(Refusal::IndexTooHigh));
}

#[test]
fn the_last_index_is_served_and_the_next_refused() {
    let map = map();
    let data = map.data();
    data.write(KEY, LAST, 0, number(1), None).unwrap();
    data.mark_estimate(KEY, LAST).unwrap();
    data.remove(KEY, LAST).unwrap();
    data.add_delta(KEY, LAST, DeltaOp::addition(1, 2)).unwrap();
    assert_eq!(data.fetch_data(KEY, LAST), Err(Uninitialized));

    let above = LAST + 1;
    let too_high = Refusal::IndexTooHigh;
    assert_eq!(data.write(KEY, above, 0, number(1), None), Err(too_high));
    assert_eq!(data.add_delta(KEY, above, DeltaOp::addition(1, 2)), Err(too_high));
    assert_eq!(data.mark_estimate(KEY, above), Err(too_high));
    assert_eq!(data.remove(KEY, above), Err(too_high));
    assert_eq!(data.fetch_data(KEY, above), refused(too_high));
    assert_eq!(data.materialize_delta(KEY, above), Err(too_high));
}
