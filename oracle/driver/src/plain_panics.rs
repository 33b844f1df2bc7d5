//! Panics of the old product that leave its maps as they were: 01 has a refusal for each, and
//! after it both go on alike, as the last tickets of each list show.

use crate::differences::{difference, number, Difference, KEY, OTHER};
use request::value::{CREATION, DELETION, MODIFICATION};
use request::{Delta, Request as R, Value};

/// A third key, of which nothing is ever recorded.
const ABSENT: u32 = 3;

pub fn all() -> Vec<Difference> {
    vec![
        no_entry(),
        no_update(),
        another_base(),
        another_group_base(),
        layout_under_a_delta(),
        no_number_under_a_delta(),
        nothing_to_materialise(),
    ]
}

fn plus(update: u128) -> Delta {
    Delta::plus(update, 9, update, 0)
}

fn no_entry() -> Difference {
    difference(
        "Plain panic, 6: nothing there in the data store",
        "Estimate and remove (kinds 4 and 5) of an absent key and of an index without an entry, and materialise (kind 7) where the read resolves and the index has no entry.",
        "01 alone, which names these kinds under 6.",
        vec![
            R::estimate(ABSENT, 0),
            R::remove(ABSENT, 0),
            R::write(KEY, 0, 0, number(1)),
            R::estimate(KEY, 1),
            R::remove(KEY, 1),
            R::delta(KEY, 1, plus(1)),
            R::materialise(KEY, 2),
            R::materialise(KEY, 1),
            R::fetch(KEY, 2),
        ],
    )
}

fn no_update() -> Difference {
    let value = Value::exchanged(CREATION, 4);
    difference(
        "Plain panic, 6: nothing there in the group store",
        "Estimate and finalise (kinds 11 and 15) of an absent key and of an index without an update, and exchange (kind 9) without a base or of a tag that is not in it.",
        "01 alone, which names these kinds under 6.",
        vec![
            R::group_estimate(ABSENT, 0),
            R::finalise(ABSENT, 0),
            R::group_write(KEY, 0, 0, &[(0, value)]),
            R::group_estimate(KEY, 1),
            R::finalise(KEY, 1),
            R::exchange(KEY, 0, value),
            R::group_base(KEY, &[(1, Value::raw(CREATION, 4))]),
            R::exchange(KEY, 0, value),
            R::group_fetch(KEY, 0, 0),
            R::finalise(KEY, 0),
        ],
    )
}

fn another_base() -> Difference {
    let exchanged = Value::exchanged(CREATION, 4);
    difference(
        "Plain panic, 8: another base",
        "Raw on raw: another length, or a deletion where there was none. Exchanged on exchanged: a layout where there was none, or another length where neither has a layout.",
        "01 alone, which says what of two bases is compared. That they agree is asked since storage does not change below a block.",
        vec![
            R::base(KEY, Value::raw(CREATION, 4)),
            R::base(KEY, Value::raw(CREATION, 5)),
            R::base(KEY, Value::raw(DELETION, 0)),
            R::fetch(KEY, 0),
            R::base(OTHER, exchanged),
            R::base(OTHER, exchanged.layout(1)),
            R::base(OTHER, Value::exchanged(CREATION, 5)),
            R::fetch(OTHER, 0),
        ],
    )
}

fn another_group_base() -> Difference {
    let raw = |length: u32| Value::raw(CREATION, length);
    difference(
        "Plain panic, 8: another group base",
        "A later base with a tag that the recorded one has not, or with another length where that is still raw.",
        "01 alone, which says what of two bases is compared: every tag of the later one.",
        vec![
            R::group_base(KEY, &[(0, raw(4)), (1, raw(4))]),
            R::group_base(KEY, &[(0, raw(5))]),
            R::group_base(KEY, &[(2, raw(4))]),
            R::group_base(KEY, &[(1, raw(4))]),
            R::last_committed(KEY),
        ],
    )
}

fn layout_under_a_delta() -> Difference {
    difference(
        "Plain panic, 9: a layout under a delta",
        "The layout is looked at first, so that a deletion with one is refused too.",
        "the Block-STM paper, on which write is read: the highest below the reader. What a delta above it does is 01's alone.",
        vec![
            R::write(KEY, 0, 0, number(1).layout(1)),
            R::delta(KEY, 1, plus(1)),
            R::fetch(KEY, 2),
            R::materialise(KEY, 1),
            R::write(KEY, 0, 1, Value::exchanged(DELETION, 0).layout(1)),
            R::fetch(KEY, 2),
            R::fetch(KEY, 1),
        ],
    )
}

fn no_number_under_a_delta() -> Difference {
    difference(
        "Plain panic, 10: no number under a delta",
        "Only a value of 16 bytes is a number. A deletion has none and is Versioned.",
        "the Block-STM paper, on which write is read: the highest below the reader. What a delta above it does is 01's alone.",
        vec![
            R::write(KEY, 0, 0, Value::exchanged(MODIFICATION, 15)),
            R::delta(KEY, 1, plus(1)),
            R::fetch(KEY, 2),
            R::materialise(KEY, 1),
            R::write(KEY, 0, 1, Value::exchanged(DELETION, 0)),
            R::fetch(KEY, 2),
        ],
    )
}

fn nothing_to_materialise() -> Difference {
    difference(
        "Plain panic, 13: materialising what is neither resolved nor unresolved",
        "A write, a sum above the limit, an estimate.",
        "the Block-STM paper, that an estimate is a dependency and so no number; 01 alone, that the refusal is 13.",
        vec![
            R::write(KEY, 0, 0, number(1)),
            R::materialise(KEY, 0),
            R::delta(KEY, 1, plus(9)),
            R::materialise(KEY, 1),
            R::estimate(KEY, 0),
            R::materialise(KEY, 1),
            R::fetch(KEY, 2),
        ],
    )
}
