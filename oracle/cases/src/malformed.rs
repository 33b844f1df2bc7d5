//! Refusals 2, 3 and 4, field by field, and what stops the program.

use crate::expect::*;
use crate::Case;
use request::{head, Delta, Kind, Request as R, Value};

const KEY: u32 = 1;
const M: u128 = 100;

pub fn cases() -> Vec<Case> {
    vec![
        counts(),
        sets(),
        values(),
        places_of_values(),
        deltas(),
        tags(),
        order_of_refusals(),
        indexes(),
        long_head(),
        cut_end(),
    ]
}

/// One word more and one word less than each kind has; the next ticket starts after the words.
fn counts() -> Case {
    let mut steps = Vec::new();
    for kind in Kind::all() {
        let mut longer = well_formed(kind).words();
        longer.push(0);
        longer[0] += 1;
        let mut shorter = well_formed(kind).words();
        shorter.pop();
        shorter[0] -= 1;
        steps.push((longer, no(2)));
        steps.push((shorter, no(2)));
    }
    steps.push((R::fetch(KEY, 1).words(), uninitialized()));
    words_case("2: a count that is wrong for the kind", steps)
}

fn well_formed(kind: Kind) -> R {
    match kind {
        Kind::LastCommitted => R::last_committed(KEY),
        Kind::Base => R::base(KEY, number(1)),
        Kind::Write => R::write(KEY, 0, 0, number(1)),
        Kind::Delta => R::delta(KEY, 0, plus(1, M)),
        Kind::GroupBase => R::group_base(KEY, &[(2, raw_creation(1))]),
        Kind::Exchange => R::exchange(KEY, 2, number(1)),
        Kind::GroupWrite => R::group_write(KEY, 0, 0, &[(2, number(1))]),
        Kind::GroupFetch => R::group_fetch(KEY, 2, 0),
        _ => R::at(kind, KEY, 0),
    }
}

/// "How many values follow is the number of ones in the set."
fn sets() -> Case {
    let mut ticket = R::group_write(KEY, 0, 0, &[(2, number(1))]).words();
    ticket[5] = 1; // one more tag than values
    let base = head(Kind::GroupBase as u32, 0);
    let write = head(Kind::GroupWrite as u32, 0);
    words_case(
        "2: values and set disagree, or the set itself is cut",
        vec![
            (ticket, no(2)),
            (vec![base], no(2)),
            (vec![base + 1, KEY], no(2)),
            (vec![base + 2, KEY, 0], no(2)),
            (vec![write + 4, KEY, 0, 0, 0], no(2)),
            (vec![base + 3, KEY, 0, 0], done()),
            (vec![write + 5, KEY, 0, 0, 0, 0], done()),
        ],
    )
}

fn values() -> Case {
    let bad = |value: Value| (R::base(KEY, value), no(3));
    case(
        "3: the value's rules",
        [
            bad(Value::raw(3, 0)),
            bad(Value::exchanged(3, 0)),
            bad(Value::raw(0, 1_048_577)),
            bad(Value::exchanged(1, 0x1FFF_FFFF)),
            bad(Value::raw(2, 1)),
            bad(deletion().number(1)),
            bad(raw_creation(15).number(1)),
            bad(raw_creation(17).number(1 << 96)),
            bad(raw_creation(0).number(1 << 64)),
            bad(raw_creation(1).layout(1)),
            bad(raw_deletion().layout(1)),
            (R::fetch(KEY, 0), uninitialized()),
            (R::base(KEY, deletion().layout(9).handle(8)), done()),
            (R::fetch(KEY, 0), at_base(deletion().layout(9).handle(8))),
            (R::base(KEY + 1, raw_creation(1_048_576).handle(u32::MAX)), done()),
            (R::fetch(KEY + 1, 0), at_base(raw_creation(1_048_576).handle(u32::MAX))),
            (R::base(KEY + 2, number(u128::MAX).layout(u32::MAX)), done()),
        ],
    )
}

/// The words "exchanged", "raw" and "no deletion" of the table.
fn places_of_values() -> Case {
    case(
        "3: a value that the table does not allow there",
        [
            (R::write(KEY, 0, 0, raw_creation(1)), no(3)),
            (R::group_base(KEY, &[(0, creation(1))]), no(3)),
            (R::group_base(KEY, &[(0, raw_creation(1)), (1, deletion())]), no(3)),
            (R::group_write(KEY, 0, 0, &[(0, creation(1)), (9, raw_creation(1))]), no(3)),
            (R::group_write(KEY, 0, 0, &[(0, creation(15).number(1))]), no(3)),
            (R::exchange(KEY, 0, raw_creation(1)), no(3)),
            (R::exchange(KEY, 0, deletion()), no(3)),
            (R::group_size(KEY, 1), uninitialized()),
        ],
    )
}

fn deltas() -> Case {
    let bad = |delta: Delta| (R::delta(KEY, 0, delta), no(3));
    let good = |delta: Delta| (R::delta(KEY, 0, delta), done());
    let sign_2 = Delta { sign: 2, ..Delta::plus(1, M, 1, 1) };
    case(
        "3: the delta's rules",
        [
            bad(Delta::plus(0, M, M + 1, 0)),
            bad(Delta::plus(0, M, 0, M + 1)),
            bad(Delta::plus(2, M, 1, 5)),
            bad(Delta::minus(2, M, 5, 1)),
            bad(Delta::minus(0, M, 5, 5)),
            bad(sign_2),
            bad(Delta { sign: u32::MAX, ..sign_2 }),
            (R::fetch(KEY, 1), uninitialized()),
            good(Delta::plus(M, M, M, M)),
            good(Delta::minus(M, M, M, M)),
            good(Delta::plus(0, 0, 0, 0)),
            good(Delta::plus(u128::MAX, u128::MAX, u128::MAX, u128::MAX)),
        ],
    )
}

fn tags() -> Case {
    case(
        "3: a tag is 0 to 63",
        [
            (R::group_fetch(KEY, 64, 0), no(3)),
            (R::group_fetch(KEY, u32::MAX, 0), no(3)),
            (R::exchange(KEY, 64, creation(1)), no(3)),
            (R::group_fetch(KEY, 63, 0), uninitialized()),
            (R::exchange(KEY, 63, creation(1)), no(6)),
        ],
    )
}

/// "The lowest number that applies is given."
fn order_of_refusals() -> Case {
    let mut long = R::write(KEY, u32::MAX, 0, raw_creation(1)).words();
    long.push(0);
    long[0] += 1;
    words_case(
        "2 before 3 before 4 before 6",
        vec![
            (long, no(2)),
            (R::write(KEY, u32::MAX, 0, raw_creation(1)).words(), no(3)),
            (R::write(KEY, u32::MAX, 0, creation(1)).words(), no(4)),
            (R::group_fetch(KEY, 64, u32::MAX).words(), no(3)),
            (R::remove(KEY, u32::MAX).words(), no(4)),
            (R::remove(KEY, u32::MAX - 1).words(), no(6)),
        ],
    )
}

fn indexes() -> Case {
    let last = u32::MAX - 1;
    case(
        "4: up to 4,294,967,294 is served, to materialise up to 4,294,967,293",
        [
            (R::write(KEY, last, 0, number(1)), done()),
            (R::fetch(KEY, last), uninitialized()),
            (R::estimate(KEY, last), done()),
            (R::materialise(KEY, last), no(4)),
            (R::remove(KEY, last), done()),
            (R::delta(KEY, last - 1, plus(1, M)), done()),
            (R::materialise(KEY, last - 1), unresolved(plus(1, M))),
            (R::group_write(KEY, last, 0, &[]), done()),
            (R::group_estimate(KEY, last), done()),
            (R::finalise(KEY, last), committed(&[])),
            (R::group_remove(KEY, last), done()),
        ],
    )
}

fn long_head() -> Case {
    let mut wrong = vec![head(Kind::LastCommitted as u32, 453)];
    wrong.resize(454, 0);
    Case {
        name: "a head counting 453 of a wrong kind goes on, one counting 454 stops".to_string(),
        tickets: vec![
            wrong,
            R::fetch(KEY, 0).words(),
            vec![head(Kind::Fetch as u32, 454), KEY, 0],
            R::fetch(KEY, 0).words(),
        ],
        lines: vec![no(2), uninitialized(), no(2)],
    }
}

fn cut_end() -> Case {
    Case {
        name: "a cut end prints `no 2` and stops".to_string(),
        tickets: vec![R::fetch(KEY, 0).words(), vec![R::fetch(KEY, 0).words()[0], KEY]],
        lines: vec![uninitialized(), no(2)],
    }
}
