//! The slips that 01 names.

use crate::expect::*;
use crate::Case;
use request::Request as R;

const KEY: u32 = 3;
const TOO_HIGH: u32 = 4_294_967_295;

pub fn cases() -> Vec<Case> {
    let mut cases = stopping_at_a_failed_merge();
    cases.push(wrapping_to_the_base());
    cases.extend(committing_until_one_fails());
    cases.extend(absent_and_empty());
    cases
}

/// Both orders fail to merge: 30 below, twice, with M 40.
fn stopping_at_a_failed_merge() -> Vec<Case> {
    let failing = minus(30, 40);
    let above = |name: &str, below: R, line: String| {
        case(
            &format!("slip: stopping the walk at a failed merge, over {name}"),
            [
                (below, done()),
                (R::delta(KEY, 1, failing), done()),
                (R::delta(KEY, 2, failing), done()),
                (R::fetch(KEY, 3), line),
            ],
        )
    };
    vec![
        above("a deletion", R::write(KEY, 0, 0, deletion()), versioned(0, 0, deletion())),
        above("a raw deletion in the base", R::base(KEY, raw_deletion()), at_base(raw_deletion())),
        above("a layout", R::write(KEY, 0, 0, number(99).layout(1)), no(9)),
        above("no number", R::write(KEY, 0, 0, creation(15)), no(10)),
        above("a number", R::write(KEY, 0, 0, number(99)), failure()),
        case(
            "slip: stopping the walk at a failed merge, over an estimate",
            [
                (R::write(KEY, 0, 0, number(99)), done()),
                (R::estimate(KEY, 0), done()),
                (R::delta(KEY, 1, failing), done()),
                (R::delta(KEY, 2, failing), done()),
                (R::fetch(KEY, 3), dependency(0)),
            ],
        ),
    ]
}

fn wrapping_to_the_base() -> Case {
    let base = raw_creation(16).number(8);
    case(
        "slip: wrapping index plus 1 to the base",
        [
            (R::base(KEY, base), done()),
            (R::write(KEY, TOO_HIGH, 1, number(9)), no(4)),
            (R::delta(KEY, TOO_HIGH, plus(1, 9)), no(4)),
            (R::estimate(KEY, TOO_HIGH), no(4)),
            (R::remove(KEY, TOO_HIGH), no(4)),
            (R::fetch(KEY, TOO_HIGH), no(4)),
            (R::fetch(KEY, 0), at_base(base)),
            (R::group_base(KEY, &[(1, raw_creation(4))]), done()),
            (R::group_write(KEY, TOO_HIGH, 0, &[(1, deletion())]), no(4)),
            (R::group_estimate(KEY, TOO_HIGH), no(4)),
            (R::group_remove(KEY, TOO_HIGH), no(4)),
            (R::finalise(KEY, TOO_HIGH), no(4)),
            (R::group_size(KEY, TOO_HIGH), no(4)),
            (R::group_fetch(KEY, 1, TOO_HIGH), no(4)),
            (R::group_fetch(KEY, 1, 0), at_base(raw_creation(4))),
        ],
    )
}

/// The tag that breaks the rule once last and once first, so that no order hides it.
fn committing_until_one_fails() -> Vec<Case> {
    let with = |good: u8, bad: u8| {
        let mut update = [(good, creation(2)), (bad, modification(2))];
        update.sort_by_key(|(tag, _)| *tag);
        case(
            "slip: committing tags until one fails",
            [
                (R::group_write(KEY, 0, 0, &update), wrote_outside()),
                (R::finalise(KEY, 0), no(11)),
                (R::last_committed(KEY), committed(&[])),
            ],
        )
    };
    let base = |good: u8, bad: u8| {
        let mut values = [(good, raw_creation(2)), (bad, raw_deletion())];
        values.sort_by_key(|(tag, _)| *tag);
        case(
            "slip: committing tags of a first base until one fails",
            [
                (R::group_base(KEY, &values), no(11)),
                (R::last_committed(KEY), committed(&[])),
                (R::group_fetch(KEY, u32::from(good), 0), uninitialized()),
                (R::group_base(KEY, &values[..1]), if good < bad { done() } else { no(11) }),
            ],
        )
    };
    vec![with(0, 63), with(63, 0), base(0, 63), base(63, 0)]
}

/// The same lines before a key is first named and after its only entry is gone.
fn absent_and_empty() -> Vec<Case> {
    let group = [
        (R::last_committed(KEY), committed(&[])),
        (R::group_remove(KEY, 0), done()),
        (R::group_estimate(KEY, 0), no(6)),
        (R::finalise(KEY, 0), no(6)),
        (R::exchange(KEY, 0, creation(1)), no(6)),
        (R::group_fetch(KEY, 0, 1), uninitialized()),
        (R::group_size(KEY, 1), uninitialized()),
    ];
    let data = [
        (R::materialise(KEY, 0), no(13)),
        (R::estimate(KEY, 0), no(6)),
        (R::remove(KEY, 0), no(6)),
        (R::fetch(KEY, 1), uninitialized()),
    ];
    let group_between = [
        (R::group_write(KEY, 0, 0, &[(0, creation(1))]), wrote_outside()),
        (R::group_remove(KEY, 0), done()),
    ];
    let data_between = [(R::write(KEY, 0, 0, number(1)), done()), (R::remove(KEY, 0), done())];
    vec![
        case(
            "slip: telling an absent group from an empty one",
            [group.as_slice(), &group_between, &group].concat(),
        ),
        case(
            "slip: telling an absent key of data from an empty one",
            [data.as_slice(), &data_between, &data].concat(),
        ),
    ]
}
