//! Refusals 6 to 13, each condition of 01's table.

use crate::expect::*;
use crate::Case;
use request::Request as R;

const KEY: u32 = 4;

pub fn cases() -> Vec<Case> {
    vec![
        nothing_there(),
        nothing_to_commit_to(),
        incarnation(),
        base_differs(),
        group_base_differs(),
        under_a_delta(),
        commit_rule(),
        exchange(),
        materialise(),
    ]
}

fn nothing_there() -> Case {
    case(
        "6: nothing there for kinds 4, 5, 9, 11, 15",
        [
            (R::write(KEY, 1, 0, number(1)), done()),
            (R::estimate(KEY, 0), no(6)),
            (R::remove(KEY, 0), no(6)),
            (R::group_write(KEY, 1, 0, &[(1, creation(1))]), wrote_outside()),
            (R::group_estimate(KEY, 0), no(6)),
            (R::finalise(KEY, 0), no(6)),
            (R::exchange(KEY, 1, creation(1)), no(6)),
            (R::group_base(KEY, &[(2, raw_creation(1))]), done()),
            (R::exchange(KEY, 1, creation(1)), no(6)),
        ],
    )
}

fn nothing_to_commit_to() -> Case {
    case(
        "6: 7 when Resolved",
        [
            (R::write(KEY, 0, 0, number(1)), done()),
            (R::delta(KEY, 1, plus(1, 9)), done()),
            (R::materialise(KEY, 2), no(6)),
            (R::materialise(KEY, 1), resolved(2)),
        ],
    )
}

fn incarnation() -> Case {
    case(
        "7: incarnation not higher",
        [
            (R::write(KEY, 0, 5, number(1)), done()),
            (R::write(KEY, 0, 4, number(2)), no(7)),
            (R::write(KEY, 0, 5, number(2)), no(7)),
            (R::estimate(KEY, 0), done()),
            (R::write(KEY, 0, 5, number(2)), no(7)),
            (R::fetch(KEY, 1), dependency(0)),
            (R::write(KEY, 0, 6, number(2)), done()),
            (R::fetch(KEY, 1), versioned(0, 6, number(2))),
        ],
    )
}

fn base_differs() -> Case {
    let layout = creation(4).layout(1);
    case(
        "8: base differs",
        [
            (R::base(KEY, raw_creation(4)), done()),
            (R::base(KEY, raw_modification(4).handle(9)), done()),
            (R::base(KEY, raw_creation(5)), no(8)),
            (R::base(KEY, raw_deletion()), no(8)),
            (R::fetch(KEY, 0), at_base(raw_creation(4))),
            (R::base(KEY, creation(9)), done()),
            (R::fetch(KEY, 0), at_base(creation(9))),
            (R::base(KEY, raw_deletion()), done()),
            (R::base(KEY, creation(9).handle(3)), done()),
            (R::base(KEY, creation(8)), no(8)),
            (R::base(KEY, deletion()), no(8)),
            (R::base(KEY, creation(9).layout(1)), no(8)),
            (R::fetch(KEY, 0), at_base(creation(9))),
            (R::base(KEY + 1, layout), done()),
            (R::base(KEY + 1, creation(70).layout(2)), done()),
            (R::base(KEY + 1, deletion().layout(2)), done()),
            (R::base(KEY + 1, creation(4)), no(8)),
            (R::fetch(KEY + 1, 0), at_base(layout)),
            (R::base(KEY + 2, raw_deletion()), done()),
            (R::base(KEY + 2, raw_creation(0)), no(8)),
            (R::base(KEY + 2, raw_deletion().handle(1)), done()),
        ],
    )
}

fn group_base_differs() -> Case {
    let base = [(1, raw_creation(4)), (2, raw_creation(0))];
    case(
        "8: a later group base differs",
        [
            (R::group_base(KEY, &base), done()),
            (R::group_base(KEY, &base), done()),
            (R::group_base(KEY, &[(1, raw_modification(4).handle(1))]), done()),
            (R::group_base(KEY, &[(1, raw_creation(5))]), no(8)),
            (R::group_base(KEY, &[(2, raw_deletion())]), no(8)),
            (R::group_base(KEY, &[(1, raw_creation(4)), (3, raw_creation(1))]), no(8)),
            (R::exchange(KEY, 1, creation(9)), done()),
            (R::group_base(KEY, &[(1, raw_creation(5))]), done()),
            (R::group_base(KEY, &[(1, raw_deletion())]), done()),
            (R::group_fetch(KEY, 1, 0), at_base(creation(9))),
        ],
    )
}

fn under_a_delta() -> Case {
    case(
        "9 and 10: a layout and no number under a delta, deletions excepted",
        [
            (R::delta(KEY, 2, plus(1, 9)), done()),
            (R::write(KEY, 1, 0, number(1).layout(1)), done()),
            (R::fetch(KEY, 3), no(9)),
            (R::materialise(KEY, 2), no(9)),
            (R::materialise(KEY, 3), no(9)),
            (R::write(KEY, 1, 1, creation(15).layout(1)), done()),
            (R::fetch(KEY, 3), no(9)),
            (R::write(KEY, 1, 2, deletion().layout(1)), done()),
            (R::fetch(KEY, 3), no(9)),
            (R::write(KEY, 1, 3, creation(15)), done()),
            (R::fetch(KEY, 3), no(10)),
            (R::materialise(KEY, 2), no(10)),
            (R::write(KEY, 1, 4, modification(0)), done()),
            (R::fetch(KEY, 3), no(10)),
            (R::write(KEY, 1, 5, deletion()), done()),
            (R::fetch(KEY, 3), versioned(1, 5, deletion())),
            (R::materialise(KEY, 2), no(13)),
        ],
    )
}

fn commit_rule() -> Case {
    let at = |index: u32, value| R::group_write(KEY, index, 0, &[(1, value)]);
    case(
        "11: the commit rule",
        [
            (at(0, deletion()), wrote_outside()),
            (R::finalise(KEY, 0), no(11)),
            (at(1, modification(1)), wrote_outside()),
            (R::finalise(KEY, 1), no(11)),
            (at(2, creation(2)), wrote_outside()),
            (R::finalise(KEY, 2), committed(&[(1, creation(2))])),
            (R::finalise(KEY, 2), no(11)),
            (R::finalise(KEY, 1), committed(&[(1, modification(1))])),
            (R::finalise(KEY, 1), committed(&[(1, modification(1))])),
            (R::group_base(KEY, &[(1, raw_creation(1))]), no(11)),
            (R::finalise(KEY, 0), committed(&[])),
            (R::finalise(KEY, 0), no(11)),
            (R::group_base(KEY, &[(1, raw_creation(1))]), done()),
            (R::last_committed(KEY), committed(&[(1, raw_creation(1))])),
        ],
    )
}

fn exchange() -> Case {
    let new = creation(7).layout(1).handle(2);
    case(
        "12: kind 9 over a raw base, committed value absent or already exchanged",
        [
            (R::group_base(KEY, &[(1, raw_creation(1)), (2, raw_creation(1))]), done()),
            (R::group_write(KEY, 0, 0, &[(1, modification(5))]), wrote_outside()),
            (R::finalise(KEY, 0), committed(&[(1, modification(5)), (2, raw_creation(1))])),
            (R::exchange(KEY, 1, new), no(12)),
            (R::group_fetch(KEY, 1, 0), at_base(raw_creation(1))),
            (R::exchange(KEY, 2, new), done()),
            (R::group_fetch(KEY, 2, 0), at_base(new)),
            (R::last_committed(KEY), committed(&[(1, modification(5)), (2, new)])),
            (R::exchange(KEY, 2, creation(9)), done()),
            (R::group_fetch(KEY, 2, 0), at_base(new)),
            (R::group_write(KEY, 1, 0, &[(2, deletion())]), wrote_outside()),
            (R::finalise(KEY, 1), committed(&[(1, modification(5))])),
            (R::exchange(KEY, 2, creation(9)), done()),
            (R::last_committed(KEY), committed(&[(1, modification(5))])),
        ],
    )
}

fn materialise() -> Case {
    case(
        "13: neither Resolved nor Unresolved, and not 9 or 10",
        [
            (R::materialise(KEY, 1), no(13)),
            (R::write(KEY, 0, 0, number(5)), done()),
            (R::materialise(KEY, 0), no(13)),
            (R::materialise(KEY, 1), no(13)),
            (R::delta(KEY, 1, plus(5, 9)), done()),
            (R::materialise(KEY, 1), no(13)),
            (R::estimate(KEY, 0), done()),
            (R::materialise(KEY, 1), no(13)),
            (R::remove(KEY, 0), done()),
            (R::materialise(KEY, 1), unresolved(plus(5, 9))),
            (R::materialise(KEY, 2), unresolved(plus(5, 9))),
            (R::estimate(KEY, 1), done()),
            (R::materialise(KEY, 1), no(13)),
        ],
    )
}
