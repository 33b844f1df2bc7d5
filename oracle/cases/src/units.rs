//! 14: a store of 16,384 words has 512 units.

use crate::expect::*;
use crate::Case;
use request::{Request as R, Tagged, Value};

const KEY: u32 = 6;

pub fn cases() -> Vec<Case> {
    vec![data(), groups(), committed_tags()]
}

fn data() -> Case {
    let mut steps: Vec<(R, String)> =
        (0..511).map(|index| (R::write(KEY, index, 0, number(1)), done())).collect();
    steps.extend([
        (R::base(KEY, raw_creation(1)), done()),
        (R::write(KEY, 511, 0, number(1)), no(14)),
        (R::delta(KEY + 1, 0, plus(1, 9)), no(14)),
        (R::base(KEY + 1, raw_creation(1)), no(14)),
        (R::base(KEY, raw_creation(2)), no(8)),
        (R::base(KEY, creation(2)), done()),
        (R::write(KEY, 7, 0, number(1)), no(7)),
        (R::write(KEY, 7, 1, number(1)), done()),
        (R::delta(KEY, 7, plus(1, 9)), done()),
        (R::materialise(KEY, 7), resolved(2)),
        (R::group_base(KEY, &[]), done()),
        (R::remove(KEY, 7), done()),
        (R::delta(KEY + 1, 0, plus(1, 9)), done()),
        (R::delta(KEY + 1, 1, plus(1, 9)), no(14)),
        (R::fetch(KEY + 1, 2), unresolved(plus(1, 9))),
    ]);
    case("14: the data store, 1 an entry", steps)
}

fn all_tags(value: Value) -> Tagged {
    (0..64).map(|tag| (tag, value)).collect()
}

/// 7 updates of all tags are 455 units; one of 56 tags makes 512.
fn groups() -> Case {
    let whole = all_tags(creation(1));
    let mut steps: Vec<(R, String)> =
        (0..7).map(|index| (R::group_write(KEY, index, 0, &whole), wrote_outside())).collect();
    steps.extend([
        (R::group_write(KEY, 7, 0, &whole[..57]), no(14)),
        (R::group_fetch(KEY, 0, 8), versioned(6, 0, creation(1))),
        (R::group_write(KEY, 7, 0, &whole[..56]), wrote_outside()),
        (R::group_write(KEY, 8, 0, &[]), no(14)),
        (R::group_base(KEY, &[]), no(14)),
        (R::finalise(KEY, 0), no(14)),
        (R::finalise(KEY, 9), no(6)),
        (R::last_committed(KEY), committed(&[])),
        (R::group_base(KEY + 1, &[(0, raw_modification(1))]), no(11)),
        (R::write(KEY, 0, 0, number(1)), done()),
        // A replaced update's units are free for the new one.
        (R::group_write(KEY, 7, 1, &whole[8..]), wrote_outside()),
        (R::group_write(KEY, 7, 1, &whole[9..]), done()),
        (R::group_write(KEY, 8, 0, &[]), done()),
        (R::group_write(KEY, 8, 0, &whole[..1]), no(14)),
        (R::group_remove(KEY, 1), done()),
        (R::finalise(KEY, 0), committed(&whole)),
        (R::group_write(KEY, 1, 0, &[]), done()),
        (R::group_write(KEY + 1, 0, 0, &[]), no(14)),
    ]);
    case("14: the group store, 1 plus 1 a tag an update", steps)
}

/// A first base takes its update and, committed, its tags again; a deletion gives units back.
fn committed_tags() -> Case {
    let (raw, gone) = (all_tags(raw_creation(1)), all_tags(deletion()));
    let base = |key: u32| (R::group_base(key, &raw), done());
    case(
        "14: a committed tag takes 1",
        vec![
            base(1),
            base(2),
            base(3),
            (R::group_base(4, &raw), no(14)),
            (R::group_fetch(4, 0, 0), uninitialized()),
            (R::group_base(4, &raw[..62]), done()),
            (R::group_write(4, 0, 0, &[]), no(14)),
            (R::group_base(4, &raw[..1]), done()),
            (R::group_write(4, 0, 0, &[]), no(14)),
            (R::group_base(4, &raw[..63]), no(8)),
            (R::group_write(1, 0, 0, &gone), no(14)),
            (R::exchange(1, 0, creation(1)), done()),
        ],
    )
}
