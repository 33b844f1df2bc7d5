//! Every refusal by its number, on words lent to the open call and on a map's own stores.
//! `Lent::call` sees to it that a refusal has changed no word.

mod common;

use common::lent::Lent;
use common::words::*;
use proved_mvhashmap::{call, MVHashMap, Refusal, ANSWER_WORDS};

const DATA_UNITS: usize = 4;
const GROUP_UNITS: usize = 5;

/// Requests that are accepted, then one that is refused by a number.
struct Case(u32, Vec<Vec<u32>>, Vec<u32>);

fn under_a_delta(below: Value) -> Vec<Vec<u32>> {
    vec![write(1, 0, 0, below), add_delta(1, 1, &plus(1, 9))]
}

fn finalized(base: Value, update: Value) -> Vec<Vec<u32>> {
    vec![group_base(1, &[(3, base)]), group_write(1, 0, 0, &[(3, update)]), finalize(1, 0)]
}

/// Refusals that the request alone decides.
fn request_cases() -> Vec<Case> {
    let alone = |number, request| Case(number, vec![], request);
    let layout_of_raw = value(4, 1, 5, 0);
    let number_of_bytes = value(1 << 29 | 15, 0, 5, 1);
    let bytes_of_deletion = exchanged(DELETION, 1);
    let number_of_deletion = value(DELETION << 30 | 1 << 29, 0, 5, 1);
    vec![
        alone(2, vec![]),
        alone(2, request(6, &[1])),
        alone(2, request(6, &[1, 2, 3])),
        alone(2, vec![6 << 28 | 2, 1]),
        alone(2, vec![6 << 28 | 2, 1, 2, 3]),
        alone(2, request(8, &[1, 1, 0])),
        alone(3, base(1, layout_of_raw)),
        alone(3, base(1, raw(3, 0))),
        alone(3, write(1, 0, 0, raw(CREATION, 4))),
        alone(3, write(1, 0, 0, exchanged(CREATION, 1_048_577))),
        alone(3, write(1, 0, 0, number_of_bytes)),
        alone(3, write(1, 0, 0, bytes_of_deletion)),
        alone(3, write(1, 0, 0, number_of_deletion)),
        alone(3, add_delta(1, 0, &delta(9, 10, 0, 0, PLUS))),
        alone(3, add_delta(1, 0, &delta(9, 0, 10, 0, PLUS))),
        alone(3, add_delta(1, 0, &delta(9, 1, 9, 2, PLUS))),
        alone(3, add_delta(1, 0, &delta(9, 9, 1, 2, MINUS))),
        alone(3, add_delta(1, 0, &delta(9, 1, 1, 0, MINUS))),
        alone(3, add_delta(1, 0, &delta(9, 1, 1, 1, 2))),
        alone(3, group_base(1, &[(3, exchanged(CREATION, 4))])),
        alone(3, group_write(1, 0, 0, &[(3, raw(CREATION, 4))])),
        alone(3, exchange(1, 64, exchanged(CREATION, 4))),
        alone(3, exchange(1, 3, raw(CREATION, 4))),
        alone(3, exchange(1, 3, exchanged(DELETION, 0))),
        alone(3, group_fetch(1, 64, u32::MAX)),
        alone(4, fetch(1, u32::MAX)),
        alone(4, materialize(1, u32::MAX - 1)),
        alone(4, group_write(1, u32::MAX, 0, &[])),
    ]
}

/// Refusals that depend on what the stores hold.
fn store_cases() -> Vec<Case> {
    let one = numbered(1);
    let with_layout = value(1 << 29 | 16, 2, 5, 1);
    let created = raw(CREATION, 4);
    let one_at = |index| write(1, index, 0, one);
    vec![
        Case(6, vec![], estimate(1, 0)),
        Case(6, vec![], remove(1, 0)),
        Case(6, vec![base(1, one), add_delta(1, 0, &plus(1, 9))], materialize(1, 1)),
        Case(6, vec![group_base(1, &[])], exchange(1, 3, exchanged(CREATION, 4))),
        Case(6, vec![], group_estimate(1, 0)),
        Case(6, vec![], finalize(1, 0)),
        Case(7, vec![write(1, 0, 4, one)], write(1, 0, 4, one)),
        Case(7, vec![write(1, 0, 4, one)], write(1, 0, 3, one)),
        Case(8, vec![base(1, created)], base(1, raw(CREATION, 5))),
        Case(8, vec![base(1, raw(CREATION, 0))], base(1, raw(DELETION, 0))),
        Case(8, vec![base(1, one)], base(1, with_layout)),
        Case(8, vec![group_base(1, &[(3, created)])], group_base(1, &[(4, created)])),
        Case(9, under_a_delta(with_layout), fetch(1, 2)),
        Case(9, under_a_delta(with_layout), materialize(1, 1)),
        Case(10, under_a_delta(exchanged(CREATION, 15)), fetch(1, 2)),
        Case(10, under_a_delta(exchanged(CREATION, 15)), materialize(1, 1)),
        Case(11, vec![], group_base(1, &[(3, created), (4, raw(MODIFICATION, 4))])),
        Case(11, vec![group_write(1, 0, 0, &[(3, exchanged(DELETION, 0))])], finalize(1, 0)),
        Case(12, finalized(created, exchanged(DELETION, 0)), exchange(1, 3, one)),
        Case(12, finalized(created, exchanged(MODIFICATION, 1)), exchange(1, 3, one)),
        Case(13, vec![], materialize(1, u32::MAX - 2)),
        Case(13, vec![write(1, 0, 0, one)], materialize(1, 0)),
        Case(14, (0..4).map(one_at).collect(), one_at(4)),
        Case(14, (0..4).map(one_at).collect(), add_delta(2, 0, &plus(1, 9))),
        Case(14, (0..4).map(one_at).collect(), base(1, one)),
        Case(14, vec![], group_write(1, 0, 0, &[0, 1, 2, 3, 4].map(|t| (t, one)))),
        Case(14, vec![], group_base(1, &[0, 1, 2].map(|t| (t, created)))),
        Case(14, vec![group_write(1, 0, 0, &[0, 1, 2].map(|t| (t, one)))], finalize(1, 0)),
    ]
}

fn expected(number: u32) -> Refusal {
    Refusal::from_number(number).unwrap()
}

#[test]
fn each_case_is_refused_by_its_number() {
    for Case(number, before, request) in request_cases().into_iter().chain(store_cases()) {
        let mut lent = Lent::with_units(DATA_UNITS, GROUP_UNITS).after(&before);
        let said = lent.call(&request);
        assert_eq!(said, Err(expected(number)), "{request:X?} after {before:X?}");
    }
}

#[test]
fn a_map_refuses_as_the_open_call_does() {
    for Case(number, before, request) in request_cases().into_iter().chain(store_cases()) {
        let mut map = MVHashMap::with_units(DATA_UNITS, GROUP_UNITS);
        let mut answer = [77; ANSWER_WORDS];
        for request in &before {
            map.request(request, &mut answer).unwrap();
        }
        let kept = answer;
        assert_eq!(map.request(&request, &mut answer), Err(expected(number)), "{request:X?}");
        assert_eq!(map.request_mut(&request, &mut answer), Err(expected(number)), "{request:X?}");
        assert_eq!(answer, kept);
    }
}

#[test]
fn every_number_but_the_first_and_the_fifth_is_met_above() {
    let mut met: Vec<u32> = request_cases().iter().chain(&store_cases()).map(|c| c.0).collect();
    met.dedup();
    assert_eq!(met, [2, 3, 4, 6, 7, 8, 9, 10, 11, 12, 13, 14]);
}

#[test]
fn an_answer_slice_too_short_is_refused_first() {
    let mut lent = Lent::with_units(1, 1);
    let mut damaged = lent.clone();
    damaged.data[0] = 9;
    for request in [fetch(1, 0), vec![], fetch(1, u32::MAX)] {
        let short = Err(Refusal::AnswerTooShort);
        assert_eq!(lent.call_with_answer(&request, 450), short);
        assert_eq!(damaged.call_with_answer(&request, 450), short);
    }
    let map = MVHashMap::with_units(1, 1);
    assert_eq!(map.request(&fetch(1, 0), &mut [0; 450]), Err(Refusal::AnswerTooShort));
}

#[test]
fn a_damaged_store_comes_after_the_request_and_before_the_entries() {
    for damage in [true, false] {
        let mut lent = Lent::with_units(DATA_UNITS, GROUP_UNITS);
        let store = if damage { &mut lent.data } else { &mut lent.group };
        store[40] = 1;
        for Case(number, _, request) in request_cases() {
            assert_eq!(lent.call(&request), Err(expected(number)), "{request:X?}");
        }
        for request in [estimate(1, 0), finalize(1, 0), fetch(1, 0), last_committed(1)] {
            assert_eq!(lent.call(&request), Err(Refusal::DamagedStore), "{request:X?}");
        }
    }
}

#[test]
fn the_lowest_number_is_given() {
    let full = [0, 1].map(|index| write(1, index, 0, numbered(1)));
    let mut lent = Lent::with_units(2, 1).after(&full);
    assert_eq!(lent.call(&write(1, 0, 0, numbered(1))), Err(Refusal::IncarnationNotHigher));
    assert_eq!(lent.call(&write(1, 2, 0, numbered(1))), Err(Refusal::UnitsExhausted));
    assert_eq!(lent.call(&write(1, u32::MAX, 0, raw(0, 1))), Err(Refusal::BadField));
    let too_many = [(1, raw(CREATION, 1)), (2, raw(MODIFICATION, 1))];
    assert_eq!(lent.call(&group_base(1, &too_many)), Err(Refusal::CommitRule));
}

#[test]
fn a_store_without_units_holds_nothing() {
    let mut answer = [0; ANSWER_WORDS];
    let said = call(&fetch(1, 0), &mut [], &mut [], &mut answer);
    assert_eq!((said, answer[0]), (Ok(()), 4 << 28));
    let said = call(&write(1, 0, 0, numbered(1)), &mut [], &mut [], &mut answer);
    assert_eq!(said, Err(Refusal::UnitsExhausted));
}
