//! What 01 leaves to its reader, on the data side: walks, materialising, bases.

use crate::expect::*;
use crate::Case;
use request::{Delta, Request as R};

const KEY: u32 = 8;
const TOP: u128 = u128::MAX;

pub fn cases() -> Vec<Case> {
    vec![
        order_of_merging(),
        merged_numbers(),
        zero_has_no_minus(),
        exact_sums(),
        carries(),
        limits_differ(),
        limits_reached(),
        shortcuts(),
        shortcut_below_a_failed_merge(),
        deltas_over_a_base(),
        delta_keeps_no_mark(),
        last_index(),
    ]
}

fn order_of_merging() -> Case {
    case(
        "merging goes newest first, and that order decides failure",
        [
            (R::delta(KEY, 0, minus(20, 100)), done()),
            (R::delta(KEY, 1, plus(50, 100)), done()),
            (R::delta(KEY, 2, plus(51, 100)), done()),
            (R::fetch(KEY, 3), failure()),
            (R::fetch(KEY, 2), unresolved(Delta::plus(30, 100, 30, 20))),
        ],
    )
}

/// Newer (H 7, L 2, u +4) onto earlier (H 5, L 6, u −3): max(5, −3 + 7), max(6, 2 + 3), +1.
fn merged_numbers() -> Case {
    case(
        "a merge gives max(H', u' + H), max(L', L - u'), u' + u",
        [
            (R::delta(KEY, 0, Delta::minus(3, 50, 5, 6)), done()),
            (R::delta(KEY, 1, Delta::plus(4, 50, 7, 2)), done()),
            (R::fetch(KEY, 2), unresolved(Delta::plus(1, 50, 5, 6))),
            (R::delta(KEY, 2, Delta::minus(8, 50, 9, 9)), done()),
            (R::fetch(KEY, 3), unresolved(Delta::minus(7, 50, 10, 8))),
        ],
    )
}

fn zero_has_no_minus() -> Case {
    case(
        "a merged u of 0 is answered with sign 0",
        [
            (R::delta(KEY, 0, plus(5, 9)), done()),
            (R::delta(KEY, 1, minus(5, 9)), done()),
            (R::fetch(KEY, 2), unresolved(Delta::plus(0, 9, 5, 0))),
            (R::delta(KEY, 0, minus(5, 9)), done()),
            (R::delta(KEY, 1, plus(5, 9)), done()),
            (R::fetch(KEY, 2), unresolved(Delta::plus(0, 9, 0, 5))),
        ],
    )
}

fn exact_sums() -> Case {
    case(
        "sums are exact, never modulo 2^128",
        [
            (R::write(KEY, 0, 0, number(TOP)), done()),
            (R::delta(KEY, 1, plus(1, TOP)), done()),
            (R::fetch(KEY, 2), failure()),
            (R::delta(KEY, 1, plus(0, TOP)), done()),
            (R::fetch(KEY, 2), resolved(TOP)),
            (R::delta(KEY, 1, minus(TOP, TOP)), done()),
            (R::fetch(KEY, 2), resolved(0)),
            (R::delta(KEY, 2, plus(TOP, TOP)), done()),
            (R::fetch(KEY, 3), resolved(TOP)),
            (R::delta(KEY, 1, plus(TOP, TOP)), done()),
            (R::fetch(KEY, 3), failure()),
            (R::remove(KEY, 0), done()),
            (R::fetch(KEY, 3), failure()),
            (R::delta(KEY, 1, minus(TOP, TOP)), done()),
            (R::delta(KEY, 2, minus(1, TOP)), done()),
            (R::fetch(KEY, 3), failure()),
        ],
    )
}

fn carries() -> Case {
    let add = |number: u128| R::delta(KEY, 1, plus(number, TOP));
    let take = |number: u128| R::delta(KEY, 1, minus(number, TOP));
    let word = 1u128 << 32;
    case(
        "numbers carry between words and halves",
        [
            (R::write(KEY, 0, 0, number(word - 1)), done()),
            (add(1), done()),
            (R::fetch(KEY, 2), resolved(word)),
            (R::write(KEY, 0, 1, number((1 << 64) - 1)), done()),
            (R::fetch(KEY, 2), resolved(1 << 64)),
            (R::write(KEY, 0, 2, number((1 << 96) - 1)), done()),
            (R::fetch(KEY, 2), resolved(1 << 96)),
            (take(1), done()),
            (R::write(KEY, 0, 3, number(1 << 96)), done()),
            (R::fetch(KEY, 2), resolved((1 << 96) - 1)),
            (R::write(KEY, 0, 4, number(1 << 64)), done()),
            (R::fetch(KEY, 2), resolved((1 << 64) - 1)),
        ],
    )
}

fn limits_differ() -> Case {
    case(
        "a merge of two limits fails",
        [
            (R::delta(KEY, 0, plus(1, 9)), done()),
            (R::delta(KEY, 1, plus(1, 10)), done()),
            (R::fetch(KEY, 2), failure()),
            (R::fetch(KEY, 1), unresolved(plus(1, 9))),
            (R::materialise(KEY, 1), no(13)),
        ],
    )
}

fn limits_reached() -> Case {
    case(
        "a merge fails if the new H or L exceeds M, and not if it reaches it",
        [
            (R::delta(KEY, 0, plus(6, 10)), done()),
            (R::delta(KEY, 1, plus(4, 10)), done()),
            (R::fetch(KEY, 2), unresolved(plus(10, 10))),
            (R::delta(KEY, 1, plus(5, 10)), done()),
            (R::fetch(KEY, 2), failure()),
            (R::delta(KEY, 0, minus(6, 10)), done()),
            (R::delta(KEY, 1, minus(4, 10)), done()),
            (R::fetch(KEY, 2), unresolved(minus(10, 10))),
            (R::delta(KEY, 1, minus(5, 10)), done()),
            (R::fetch(KEY, 2), failure()),
        ],
    )
}

fn shortcuts() -> Case {
    case(
        "at a shortcut: Resolved, with any deltas above applied",
        [
            (R::write(KEY, 0, 0, number(10)), done()),
            (R::delta(KEY, 1, plus(5, 20)), done()),
            (R::materialise(KEY, 1), resolved(15)),
            (R::remove(KEY, 0), done()),
            (R::fetch(KEY, 2), resolved(15)),
            (R::fetch(KEY, 1), uninitialized()),
            (R::materialise(KEY, 1), resolved(15)),
            (R::delta(KEY, 2, plus(6, 21)), done()),
            (R::fetch(KEY, 3), resolved(21)),
            (R::delta(KEY, 2, plus(6, 20)), done()),
            (R::fetch(KEY, 3), failure()),
            (R::materialise(KEY, 2), no(13)),
            (R::estimate(KEY, 1), done()),
            (R::fetch(KEY, 2), dependency(1)),
            (R::delta(KEY, 1, plus(5, 20)), done()),
            (R::fetch(KEY, 2), unresolved(plus(5, 20))),
        ],
    )
}

fn shortcut_below_a_failed_merge() -> Case {
    case(
        "after a failed merge a shortcut is DeltaApplicationFailure",
        [
            (R::write(KEY, 0, 0, number(10)), done()),
            (R::delta(KEY, 1, plus(5, 20)), done()),
            (R::materialise(KEY, 1), resolved(15)),
            (R::delta(KEY, 2, plus(1, 30)), done()),
            (R::delta(KEY, 3, plus(1, 40)), done()),
            (R::fetch(KEY, 4), failure()),
            (R::fetch(KEY, 3), resolved(16)),
            (R::write(KEY, 0, 1, deletion()), done()),
            (R::fetch(KEY, 4), failure()),
        ],
    )
}

fn deltas_over_a_base() -> Case {
    case(
        "deltas are applied to a base, raw or exchanged",
        [
            (R::delta(KEY, 0, minus(5, 20)), done()),
            (R::base(KEY, raw_modification(16).number(5)), done()),
            (R::fetch(KEY, 1), resolved(0)),
            (R::base(KEY, number(4)), done()),
            (R::fetch(KEY, 1), failure()),
            (R::delta(KEY + 1, 0, minus(5, 20)), done()),
            (R::base(KEY + 1, raw_creation(16).number(5)), done()),
            (R::base(KEY + 1, number(4).layout(1)), done()),
            (R::fetch(KEY + 1, 1), no(9)),
            (R::base(KEY + 2, raw_creation(0)), done()),
            (R::delta(KEY + 2, 0, plus(0, 0)), done()),
            (R::fetch(KEY + 2, 1), no(10)),
        ],
    )
}

/// "`add_delta` always replaces", the mark and a shortcut too; so does a write.
fn delta_keeps_no_mark() -> Case {
    case(
        "a delta replaces a write, its mark and its incarnation",
        [
            (R::write(KEY, 0, 9, number(1)), done()),
            (R::estimate(KEY, 0), done()),
            (R::delta(KEY, 0, plus(1, 9)), done()),
            (R::fetch(KEY, 1), unresolved(plus(1, 9))),
            (R::estimate(KEY, 0), done()),
            (R::fetch(KEY, 1), dependency(0)),
            (R::write(KEY, 0, 0, number(2)), done()),
            (R::fetch(KEY, 1), versioned(0, 0, number(2))),
        ],
    )
}

fn last_index() -> Case {
    let last = u32::MAX - 1;
    case(
        "an entry at 4,294,967,294 is there and no read reaches it",
        [
            (R::write(KEY, last, 0, number(1)), done()),
            (R::fetch(KEY, last), uninitialized()),
            (R::materialise(KEY, last - 1), no(13)),
            (R::write(KEY, last - 1, 0, number(2)), done()),
            (R::fetch(KEY, last), versioned(last - 1, 0, number(2))),
            (R::write(KEY, last, 0, number(3)), no(7)),
            (R::remove(KEY, last), done()),
            (R::remove(KEY, last), no(6)),
        ],
    )
}
