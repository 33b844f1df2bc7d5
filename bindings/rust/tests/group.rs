//! The nine requests of the group store by their typed functions, with 01's cases.

use proved_mvhashmap::*;
use MVGroupError::{Dependency, TagNotFound, Uninitialized};
use ValueWithLayout::{Exchanged, RawFromStorage};
use WriteOpKind::{Creation, Modification};

const KEY: Key = 9;
const LAST: TxnIndex = 4_294_967_294;

fn map() -> MVHashMap {
    MVHashMap::with_units(0, 256)
}

fn tag(n: u8) -> Tag {
    Tag::new(n).unwrap()
}

fn created(length: u32) -> WriteOp {
    WriteOp::bytes(Creation, length, 1)
}

fn modified(length: u32) -> WriteOp {
    WriteOp::bytes(Modification, length, 2)
}

fn deleted() -> WriteOp {
    WriteOp::deletion(3)
}

fn exchanged(value: WriteOp) -> ValueWithLayout {
    Exchanged(value, None)
}

/// Values without layouts.
fn plain(values: &[(u8, WriteOp)]) -> Vec<(Tag, (WriteOp, Option<Layout>))> {
    values.iter().map(|&(n, value)| (tag(n), (value, None))).collect()
}

fn base(map: &MVHashMap, values: &[(u8, WriteOp)]) -> Result<(), Refusal> {
    map.group_data().set_raw_base_values(KEY, values.iter().map(|&(n, value)| (tag(n), value)))
}

fn write(map: &MVHashMap, index: TxnIndex, values: &[(u8, WriteOp)]) -> Result<bool, Refusal> {
    map.group_data().write(KEY, index, 0, plain(values))
}

type Group = Vec<(Tag, ValueWithLayout)>;

fn group(values: &[(u8, ValueWithLayout)]) -> Result<Group, Refusal> {
    Ok(values.iter().map(|&(n, value)| (tag(n), value)).collect())
}

#[test]
fn a_first_base_is_committed() {
    let map = map();
    base(&map, &[(40, created(4)), (2, created(0))]).unwrap();
    let raw = [(2, RawFromStorage(created(0))), (40, RawFromStorage(created(4)))];
    assert_eq!(map.group_data().get_last_committed_group(KEY), group(&raw));
    assert_eq!(map.group_data().get_last_committed_group(KEY + 1), group(&[]));
    let found = map.group_data().fetch_tagged_data(KEY, tag(40), 0);
    assert_eq!(found, Ok((Err(StorageVersion), RawFromStorage(created(4)))));
}

#[test]
fn a_first_base_keeps_the_commit_rule() {
    let map = map();
    assert_eq!(base(&map, &[(1, created(1)), (2, modified(4))]), Err(Refusal::CommitRule));
    assert_eq!(base(&map, &[(2, deleted())]), Err(Refusal::CommitRule));
    write(&map, 0, &[(2, created(3))]).unwrap();
    map.group_data().finalize_group(KEY, 0).unwrap();
    assert_eq!(base(&map, &[(2, created(4))]), Err(Refusal::CommitRule));
    base(&map, &[(2, modified(4))]).unwrap();
}

#[test]
fn a_later_base_changes_nothing() {
    let map = map();
    base(&map, &[(1, created(1)), (2, created(4))]).unwrap();
    for agrees in [&[][..], &[(2, modified(4))]] {
        base(&map, agrees).unwrap();
    }
    for other in [(3, created(1)), (2, created(5)), (2, deleted())] {
        assert_eq!(base(&map, &[(1, created(1)), other]), Err(Refusal::BaseDiffers));
    }
    let data = map.group_data();
    data.update_tagged_base_value_with_layout(KEY, tag(2), created(8), None).unwrap();
    base(&map, &[(2, created(5))]).unwrap();
    let after = [(1, RawFromStorage(created(1))), (2, exchanged(created(8)))];
    assert_eq!(data.get_last_committed_group(KEY), group(&after));
}

#[test]
fn a_write_reports_tags_outside_the_earlier_update() {
    let map = map();
    assert_eq!(write(&map, 0, &[]), Ok(false));
    assert_eq!(write(&map, 0, &[(1, created(1)), (63, created(2))]), Ok(true));
    assert_eq!(write(&map, 0, &[(63, created(3)), (1, created(4))]), Ok(false));
    assert_eq!(write(&map, 0, &[(1, created(1))]), Ok(false));
    assert_eq!(write(&map, 0, &[(63, created(1))]), Ok(true));
    assert_eq!(write(&map, 1, &[(63, created(1))]), Ok(true), "another transaction's");
}

#[test]
fn a_tag_given_twice_has_its_last_value() {
    let map = map();
    write(&map, 0, &[(5, created(1)), (4, created(2)), (5, created(3))]).unwrap();
    let found = map.group_data().fetch_tagged_data(KEY, tag(5), 1);
    assert_eq!(found, Ok((Ok((0, 0)), exchanged(created(3)))));

    base(&map, &[(5, created(1)), (5, created(7))]).unwrap();
    let found = map.group_data().fetch_tagged_data(KEY, tag(5), 0);
    assert_eq!(found, Ok((Err(StorageVersion), RawFromStorage(created(7)))));
}

#[test]
fn a_write_replaces_the_whole_update_in_any_incarnation() {
    let map = map();
    let data = map.group_data();
    data.write(KEY, 2, 5, plain(&[(1, created(1)), (2, created(2))])).unwrap();
    data.write(KEY, 2, 3, plain(&[(2, created(9))])).unwrap();
    assert_eq!(data.fetch_tagged_data(KEY, tag(2), 3), Ok((Ok((2, 3)), exchanged(created(9)))));
    assert_eq!(data.fetch_tagged_data(KEY, tag(1), 3), Err(Uninitialized));
}

#[test]
fn a_read_finds_the_greatest_lower_entry_of_its_tag() {
    let map = map();
    let data = map.group_data();
    assert_eq!(data.fetch_tagged_data(KEY, tag(1), 9), Err(Uninitialized));
    base(&map, &[]).unwrap();
    assert_eq!(data.fetch_tagged_data(KEY, tag(1), 9), Err(TagNotFound));
    let layout = Layout::new(77);
    data.write(KEY, 2, 1, [(tag(1), (created(1), layout))]).unwrap();
    write(&map, 4, &[(1, deleted())]).unwrap();
    write(&map, 5, &[(2, created(5))]).unwrap();
    assert_eq!(data.fetch_tagged_data(KEY, tag(1), 2), Err(TagNotFound));
    let first = Ok((Ok((2, 1)), Exchanged(created(1), layout)));
    assert_eq!(data.fetch_tagged_data(KEY, tag(1), 4), first);
    let second = Ok((Ok((4, 0)), exchanged(deleted())));
    assert_eq!(data.fetch_tagged_data(KEY, tag(1), LAST), second);
    data.mark_estimate(KEY, 4).unwrap();
    assert_eq!(data.fetch_tagged_data(KEY, tag(1), 9), Err(Dependency(4)));
    assert_eq!(data.fetch_tagged_data(KEY, tag(1), 4), first);
    data.remove(KEY, 4).unwrap();
    assert_eq!(data.fetch_tagged_data(KEY, tag(1), 9), first);
}

#[test]
fn an_estimate_needs_an_update_and_a_removal_does_not() {
    let map = map();
    let data = map.group_data();
    assert_eq!(data.mark_estimate(KEY, 1), Err(Refusal::NothingThere));
    assert_eq!(data.remove(KEY, 1), Ok(()));
    write(&map, 1, &[]).unwrap();
    assert_eq!(data.mark_estimate(KEY, 1), Ok(()));
    assert_eq!(data.remove(KEY, 1), Ok(()));
    assert_eq!(data.mark_estimate(KEY, 1), Err(Refusal::NothingThere));
}

#[test]
fn a_size_counts_members_that_have_bytes() {
    let map = map();
    let data = map.group_data();
    write(&map, 1, &[(1, created(10)), (2, created(0)), (3, deleted())]).unwrap();
    assert_eq!(data.get_group_size(KEY, 2), Err(Uninitialized));
    base(&map, &[(3, created(4)), (7, created(1_048_576))]).unwrap();
    assert_eq!(data.get_group_size(KEY, 1), Ok(GroupSize { members: 2, size: 1_048_582 }));
    assert_eq!(data.get_group_size(KEY, 2), Ok(GroupSize { members: 3, size: 1_048_589 }));
    assert_eq!(data.get_group_size(KEY + 1, 2), Err(Uninitialized));
}

#[test]
fn a_size_waits_for_the_first_estimate_by_tag() {
    let map = map();
    let data = map.group_data();
    base(&map, &[]).unwrap();
    write(&map, 1, &[(8, created(1))]).unwrap();
    write(&map, 2, &[(9, created(1))]).unwrap();
    data.mark_estimate(KEY, 2).unwrap();
    assert_eq!(data.get_group_size(KEY, 3), Err(Dependency(2)));
    data.mark_estimate(KEY, 1).unwrap();
    assert_eq!(data.get_group_size(KEY, 3), Err(Dependency(1)));
    assert_eq!(data.get_group_size(KEY, 1), Ok(GroupSize { members: 0, size: 0 }));
}

#[test]
fn an_exchange_replaces_base_and_committed_value() {
    let map = map();
    let data = map.group_data();
    let exchange = |value| data.update_tagged_base_value_with_layout(KEY, tag(1), value, None);
    assert_eq!(exchange(created(2)), Err(Refusal::NothingThere));
    base(&map, &[(0, created(1))]).unwrap();
    assert_eq!(exchange(created(2)), Err(Refusal::NothingThere));

    let map = self::map();
    let data = map.group_data();
    let layout = Layout::new(6);
    let exchange = |value| data.update_tagged_base_value_with_layout(KEY, tag(1), value, layout);
    base(&map, &[(1, created(1))]).unwrap();
    assert_eq!(exchange(deleted()), Err(Refusal::BadField));
    exchange(created(2)).unwrap();
    exchange(created(3)).unwrap();
    let value = Exchanged(created(2), layout);
    assert_eq!(data.fetch_tagged_data(KEY, tag(1), 0), Ok((Err(StorageVersion), value)));
    assert_eq!(data.get_last_committed_group(KEY), group(&[(1, value)]));
}

#[test]
fn an_exchange_needs_a_raw_committed_value() {
    for change in [deleted(), modified(2)] {
        let map = map();
        base(&map, &[(1, created(1))]).unwrap();
        write(&map, 0, &[(1, change)]).unwrap();
        map.group_data().finalize_group(KEY, 0).unwrap();
        let exchange =
            map.group_data().update_tagged_base_value_with_layout(KEY, tag(1), created(9), None);
        assert_eq!(exchange, Err(Refusal::NothingToExchange));
    }
}

#[test]
fn a_finalised_update_is_committed_whole_or_not_at_all() {
    let map = map();
    let data = map.group_data();
    assert_eq!(data.finalize_group(KEY, 0), Err(Refusal::NothingThere));
    base(&map, &[(1, created(1)), (2, created(2))]).unwrap();
    write(&map, 0, &[(1, deleted()), (2, modified(5)), (3, created(3))]).unwrap();
    let after = [(2, exchanged(modified(5))), (3, exchanged(created(3)))];
    assert_eq!(data.finalize_group(KEY, 0), group(&after));
    assert_eq!(data.finalize_group(KEY, 0), Err(Refusal::CommitRule), "a creation twice");
    write(&map, 1, &[(2, deleted()), (9, modified(1))]).unwrap();
    assert_eq!(data.finalize_group(KEY, 1), Err(Refusal::CommitRule));
    assert_eq!(data.get_last_committed_group(KEY), group(&after));
    write(&map, 2, &[(2, modified(6))]).unwrap();
    let again = [(2, exchanged(modified(6))), (3, exchanged(created(3)))];
    assert_eq!(data.finalize_group(KEY, 2), group(&again));
    assert_eq!(data.finalize_group(KEY, 2), group(&again), "a modification twice");
}

#[test]
fn an_estimate_is_committed_as_any_update() {
    let map = map();
    write(&map, 0, &[(1, created(1))]).unwrap();
    map.group_data().mark_estimate(KEY, 0).unwrap();
    let after = group(&[(1, exchanged(created(1)))]);
    assert_eq!(map.group_data().finalize_group(KEY, 0), after);
}

#[test]
fn all_tags_at_once() {
    let map = map();
    let all: Vec<(u8, WriteOp)> = (0..64).map(|n| (n, created(u32::from(n)))).collect();
    base(&map, &all).unwrap();
    let raw: Vec<_> = all.iter().map(|&(n, value)| (n, RawFromStorage(value))).collect();
    assert_eq!(map.group_data().get_last_committed_group(KEY), group(&raw));
    let size = GroupSize { members: 64, size: 63 * 64 / 2 + 64 };
    assert_eq!(map.group_data().get_group_size(KEY, 0), Ok(size));
    assert_eq!(write(&map, 3, &all), Ok(true));
}

#[test]
fn an_index_above_the_last_is_refused() {
    let map = map();
    let (data, above, too_high) = (map.group_data(), LAST + 1, Refusal::IndexTooHigh);
    assert_eq!(write(&map, LAST, &[(1, created(1))]), Ok(true));
    assert_eq!(write(&map, above, &[]), Err(too_high));
    assert_eq!(data.mark_estimate(KEY, above), Err(too_high));
    assert_eq!(data.remove(KEY, above), Err(too_high));
    assert_eq!(data.finalize_group(KEY, above), Err(too_high));
    let refused = MVGroupError::Refused(too_high);
    assert_eq!(data.fetch_tagged_data(KEY, tag(1), above), Err(refused));
    assert_eq!(data.get_group_size(KEY, above), Err(refused));
}
