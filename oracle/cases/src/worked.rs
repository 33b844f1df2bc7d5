//! 01's ★ cases.

use crate::expect::*;
use crate::Case;
use request::{Request, Request as R};

const KEY: u32 = 7;

pub fn cases() -> Vec<Case> {
    let mut cases = walks();
    cases.extend(entries());
    cases.extend(groups());
    cases
}

fn walks() -> Vec<Case> {
    let failing = minus(30, 40);
    vec![
        case(
            "★ write 100 at 0, delta +20 (M 150, H 20, L 0) at 1: read at 2 gives 120; at 1, Versioned",
            [
                (R::write(KEY, 0, 0, number(100)), done()),
                (R::delta(KEY, 1, plus(20, 150)), done()),
                (R::fetch(KEY, 2), resolved(120)),
                (R::fetch(KEY, 1), versioned(0, 0, number(100))),
            ],
        ),
        case(
            "★ M 119: failure",
            [
                (R::write(KEY, 0, 0, number(100)), done()),
                (R::delta(KEY, 1, plus(20, 119)), done()),
                (R::fetch(KEY, 2), failure()),
                (R::delta(KEY, 1, plus(20, 120)), done()),
                (R::fetch(KEY, 2), resolved(120)),
            ],
        ),
        case(
            "★ deletion at 0, deltas failing to merge at 1 and 2: Versioned",
            [
                (R::write(KEY, 0, 4, deletion()), done()),
                (R::delta(KEY, 1, failing), done()),
                (R::delta(KEY, 2, failing), done()),
                (R::fetch(KEY, 3), versioned(0, 4, deletion())),
            ],
        ),
    ]
}

fn entries() -> Vec<Case> {
    vec![
        case(
            "★ delta alone: Unresolved",
            [
                (R::delta(KEY, 1, plus(20, 150)), done()),
                (R::fetch(KEY, 2), unresolved(plus(20, 150))),
                (R::fetch(KEY, 1), uninitialized()),
            ],
        ),
        case(
            "★ same incarnation: 7",
            [
                (R::write(KEY, 0, 3, number(1)), done()),
                (R::write(KEY, 0, 3, number(2)), no(7)),
                (R::fetch(KEY, 1), versioned(0, 3, number(1))),
                (R::write(KEY, 0, 4, number(2)), done()),
                (R::fetch(KEY, 1), versioned(0, 4, number(2))),
            ],
        ),
        case(
            "★ delta, then write of incarnation 0: done",
            [
                (R::delta(KEY, 0, plus(1, 9)), done()),
                (R::write(KEY, 0, 0, number(5)), done()),
                (R::fetch(KEY, 1), versioned(0, 0, number(5))),
            ],
        ),
        case(
            "★ materialise 4,294,967,293 over nothing: 13; one higher: 4",
            [
                (R::materialise(KEY, 4_294_967_293), no(13)),
                (R::materialise(KEY, 4_294_967_294), no(4)),
            ],
        ),
    ]
}

fn groups() -> Vec<Case> {
    let first: [(Request, String); 2] = [
        (R::group_base(KEY, &[(3, raw_modification(8))]), no(11)),
        (R::group_fetch(KEY, 3, 1), uninitialized()),
    ];
    vec![
        case("★ first base of a modification: 11", first),
        case(
            "★ after a finalised creation of that tag: done",
            [
                (R::group_write(KEY, 0, 0, &[(3, creation(8))]), wrote_outside()),
                (R::finalise(KEY, 0), committed(&[(3, creation(8))])),
                (R::group_base(KEY, &[(3, raw_modification(8))]), done()),
                (R::last_committed(KEY), committed(&[(3, raw_modification(8))])),
            ],
        ),
        case(
            "★ exchange after a finalised deletion: 12",
            [
                (R::group_base(KEY, &[(3, raw_creation(8))]), done()),
                (R::group_write(KEY, 0, 0, &[(3, deletion())]), wrote_outside()),
                (R::finalise(KEY, 0), committed(&[])),
                (R::exchange(KEY, 3, creation(8)), no(12)),
                (R::group_fetch(KEY, 3, 0), at_base(raw_creation(8))),
            ],
        ),
        case(
            "★ fetch with an empty base: TagNotFound",
            [(R::group_base(KEY, &[]), done()), (R::group_fetch(KEY, 0, 0), tag_not_found())],
        ),
    ]
}
