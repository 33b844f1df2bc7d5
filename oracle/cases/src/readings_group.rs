//! What 01 leaves to its reader, on the group side.

use crate::expect::*;
use crate::Case;
use request::Request as R;

const KEY: u32 = 9;

pub fn cases() -> Vec<Case> {
    vec![
        outside(),
        first_and_later_bases(),
        base_over_committed(),
        exchange_first_looks_at_the_base(),
        estimates(),
        first_estimate_by_tag(),
        sizes(),
        reads_below_their_index(),
        marks_play_no_part_in_commits(),
    ]
}

fn outside() -> Case {
    let value = creation(1);
    case(
        "a group write reports outside if some tag was not in that update",
        [
            (R::group_write(KEY, 0, 5, &[(1, value), (2, value)]), wrote_outside()),
            (R::group_write(KEY, 0, 5, &[(1, value)]), done()),
            (R::group_write(KEY, 0, 4, &[(1, value), (2, value)]), wrote_outside()),
            (R::group_write(KEY, 0, 0, &[]), done()),
            (R::group_fetch(KEY, 1, 1), uninitialized()),
            (R::group_write(KEY, 0, 0, &[(1, value)]), wrote_outside()),
            (R::group_write(KEY, 1, 0, &[(1, value)]), wrote_outside()),
            (R::group_write(KEY, 2, 0, &[]), done()),
            (R::finalise(KEY, 2), committed(&[])),
        ],
    )
}

fn first_and_later_bases() -> Case {
    case(
        "a refused base does not count as the first, an empty one does",
        [
            (R::group_base(KEY, &[(1, raw_modification(1))]), no(11)),
            (R::group_base(KEY, &[(1, raw_creation(1))]), done()),
            (R::group_base(KEY, &[]), done()),
            (R::group_base(KEY, &[(1, raw_modification(1))]), done()),
            (R::group_base(KEY + 1, &[]), done()),
            (R::group_base(KEY + 1, &[(1, raw_creation(1))]), no(8)),
            (R::group_base(KEY + 1, &[(1, raw_modification(1))]), no(8)),
        ],
    )
}

fn base_over_committed() -> Case {
    case(
        "a raw deletion as first base removes the committed tag and stays in the base",
        [
            (R::group_write(KEY, 3, 0, &[(1, creation(1)), (2, creation(2))]), wrote_outside()),
            (R::finalise(KEY, 3), committed(&[(1, creation(1)), (2, creation(2))])),
            (R::group_base(KEY, &[(2, raw_creation(2))]), no(11)),
            (R::group_base(KEY, &[(1, raw_deletion())]), done()),
            (R::last_committed(KEY), committed(&[(2, creation(2))])),
            (R::group_fetch(KEY, 1, 3), at_base(raw_deletion())),
            (R::group_fetch(KEY, 2, 3), tag_not_found()),
            (R::group_size(KEY, 3), size(0, 0)),
            (R::exchange(KEY, 1, creation(1)), no(12)),
            (R::exchange(KEY, 2, creation(1)), no(6)),
            (R::group_base(KEY, &[(1, raw_creation(0))]), no(8)),
            (R::finalise(KEY, 3), no(11)),
        ],
    )
}

fn exchange_first_looks_at_the_base() -> Case {
    let new = creation(3).layout(4);
    case(
        "base, update and committed value become exchanged",
        [
            (R::group_write(KEY, 0, 0, &[(5, creation(1))]), wrote_outside()),
            (R::finalise(KEY, 0), committed(&[(5, creation(1))])),
            (R::exchange(KEY, 5, new), no(6)),
            (R::group_base(KEY, &[(5, raw_modification(8))]), done()),
            (R::exchange(KEY, 5, new), done()),
            (R::group_fetch(KEY, 5, 0), at_base(new)),
            (R::last_committed(KEY), committed(&[(5, new)])),
            (R::group_size(KEY, 0), size(1, 4)),
            (R::group_base(KEY, &[(5, raw_creation(99))]), done()),
            (R::finalise(KEY, 0), no(11)),
        ],
    )
}

fn estimates() -> Case {
    let update = [(1, creation(1)), (2, creation(2))];
    case(
        "a mark holds for the whole update until it is written again",
        [
            (R::group_base(KEY, &[(1, raw_creation(9))]), done()),
            (R::group_write(KEY, 2, 0, &update), wrote_outside()),
            (R::group_estimate(KEY, 2), done()),
            (R::group_fetch(KEY, 1, 3), dependency(2)),
            (R::group_fetch(KEY, 2, 3), dependency(2)),
            (R::group_fetch(KEY, 1, 2), at_base(raw_creation(9))),
            (R::group_size(KEY, 3), dependency(2)),
            (R::group_size(KEY, 2), size(1, 10)),
            (R::group_write(KEY, 2, 0, &update), done()),
            (R::group_fetch(KEY, 1, 3), versioned(2, 0, creation(1))),
            (R::group_write(KEY, 3, 0, &[]), done()),
            (R::group_estimate(KEY, 3), done()),
            (R::group_size(KEY, 4), size(2, 5)),
            (R::group_remove(KEY, 2), done()),
            (R::group_fetch(KEY, 2, 3), tag_not_found()),
        ],
    )
}

/// "Tags in rising order, the first estimate gives Dependency", whatever the indexes are.
fn first_estimate_by_tag() -> Case {
    let mark = |index: u32| (R::group_estimate(KEY, index), done());
    let write = |index: u32, tag: u8| {
        let values = [(tag, creation(1))];
        (R::group_write(KEY, index, 0, &values), wrote_outside())
    };
    case(
        "of several estimates the one of the lowest tag",
        [
            write(4, 1),
            write(3, 63),
            write(5, 32),
            mark(3),
            mark(4),
            mark(5),
            (R::group_size(KEY, 9), uninitialized()),
            (R::group_base(KEY, &[]), done()),
            (R::group_size(KEY, 9), dependency(4)),
            (R::group_size(KEY, 4), dependency(3)),
            (R::group_remove(KEY, 4), done()),
            (R::group_size(KEY, 9), dependency(5)),
            (R::group_size(KEY, 5), dependency(3)),
            (R::group_size(KEY, 3), size(0, 0)),
        ],
    )
}

fn sizes() -> Case {
    case(
        "a member of 0 bytes counts and adds 1; a deletion does not",
        [
            (R::group_base(KEY, &[(0, raw_creation(0)), (63, raw_creation(1_048_576))]), done()),
            (R::group_size(KEY, 0), size(2, 1_048_578)),
            (R::group_write(KEY, 0, 0, &[(63, deletion())]), wrote_outside()),
            (R::group_size(KEY, 1), size(1, 1)),
            (R::group_fetch(KEY, 63, 1), versioned(0, 0, deletion())),
        ],
    )
}

fn reads_below_their_index() -> Case {
    let last = u32::MAX - 1;
    case(
        "group reads take the greatest lower entry",
        [
            (R::group_write(KEY, 0, 1, &[(1, creation(1))]), wrote_outside()),
            (R::group_write(KEY, 2, 2, &[(1, modification(2))]), wrote_outside()),
            (R::group_write(KEY, last, 3, &[(1, modification(3))]), wrote_outside()),
            (R::group_fetch(KEY, 1, 0), uninitialized()),
            (R::group_fetch(KEY, 1, 1), versioned(0, 1, creation(1))),
            (R::group_fetch(KEY, 1, 2), versioned(0, 1, creation(1))),
            (R::group_fetch(KEY, 1, last), versioned(2, 2, modification(2))),
        ],
    )
}

fn marks_play_no_part_in_commits() -> Case {
    case(
        "estimated or not plays no part in the commit rule",
        [
            (R::group_write(KEY, 0, 0, &[(1, creation(1))]), wrote_outside()),
            (R::group_estimate(KEY, 0), done()),
            (R::finalise(KEY, 0), committed(&[(1, creation(1))])),
            (R::group_fetch(KEY, 1, 1), dependency(0)),
            (R::group_remove(KEY, 0), done()),
            (R::last_committed(KEY), committed(&[(1, creation(1))])),
        ],
    )
}
