//! The differences between the old product and 01, first those with which 01 starts the list,
//! each with the tickets that show it and with what decides it.

use crate::plain_panics;
use request::value::{CREATION, DELETION, MODIFICATION};
use request::{Delta, Request as R, Value};

pub struct Difference {
    pub name: &'static str,
    pub why: &'static str,
    /// Which paper says what is right here, and why.
    pub decided: &'static str,
    /// Tickets that only prepare, all answered like the first, and what they are in a word.
    pub before: Vec<R>,
    pub caption: &'static str,
    pub tickets: Vec<R>,
}

impl Difference {
    /// All of its tickets.
    pub fn history(&self) -> Vec<R> {
        [self.before.as_slice(), &self.tickets].concat()
    }
}

pub(crate) const KEY: u32 = 1;
pub(crate) const OTHER: u32 = 2;
const TOO_HIGH: u32 = u32::MAX;

pub fn all() -> Vec<Difference> {
    [
        half_done(),
        half_done_commits(),
        exchange_to_a_deletion(),
        absent_keys(),
        estimates(),
        indexes(),
        plain_panics::all(),
        limits(),
    ]
    .into_iter()
    .flatten()
    .collect()
}

pub(crate) fn difference(
    name: &'static str,
    why: &'static str,
    decided: &'static str,
    tickets: Vec<R>,
) -> Difference {
    Difference { name, why, decided, before: vec![], caption: "", tickets }
}

pub(crate) fn number(number: u128) -> Value {
    Value::exchanged(CREATION, 16).number(number)
}

fn half_done() -> Vec<Difference> {
    let raw = |kind: u32| Value::raw(kind, 4);
    vec![
        difference(
            "Half-done panic: a write of an incarnation that is not higher",
            "The Rust puts the new entry in its place and then asserts. A refused ticket of ours changes nothing.",
            "01 alone: by demand 1 a refused ticket changes nothing. By the Block-STM paper the reader then gets the highest version below it, and that is the first write.",
            vec![
                R::write(KEY, 0, 3, number(1)),
                R::write(KEY, 0, 3, number(2)),
                R::fetch(KEY, 1),
            ],
        ),
        difference(
            "Half-done panic: a first group base that breaks the commit rule",
            "The Rust records the update and may commit some tags before the rule fails, in the order of a hash map. With us such a base is not recorded, so a better one may follow.",
            "AIP-9, that a group stands as a whole: its members lie in one slot of storage, where there is no half of a base. On which updates may be committed, 01 alone.",
            vec![
                R::group_base(KEY, &[(0, raw(CREATION)), (1, raw(MODIFICATION))]),
                R::group_fetch(KEY, 1, 0),
                R::last_committed(KEY),
                R::group_base(KEY, &[(0, raw(CREATION)), (2, raw(CREATION))]),
            ],
        ),
    ]
}

fn half_done_commits() -> Vec<Difference> {
    vec![
        difference(
            "Half-done panic: an exchange whose committed value is absent or exchanged",
            "The Rust exchanges the base and its update before it looks at the committed value; a second try then finds the base exchanged and is content.",
            "01 alone: by demand 1 a refused ticket changes nothing, and 12 is the number here.",
            vec![
                R::group_base(KEY, &[(0, Value::raw(CREATION, 4))]),
                R::group_write(KEY, 0, 0, &[(0, Value::exchanged(DELETION, 0))]),
                R::finalise(KEY, 0),
                R::exchange(KEY, 0, Value::exchanged(CREATION, 9)),
                R::group_fetch(KEY, 0, 0),
                R::exchange(KEY, 0, Value::exchanged(CREATION, 9)),
                R::group_base(OTHER, &[(0, Value::raw(CREATION, 4))]),
                R::group_write(OTHER, 0, 0, &[(0, Value::exchanged(MODIFICATION, 5))]),
                R::finalise(OTHER, 0),
                R::exchange(OTHER, 0, Value::exchanged(CREATION, 9)),
                R::group_fetch(OTHER, 0, 0),
            ],
        ),
        difference(
            "Half-done finalise",
            "The Rust commits tag by tag, in the order of a hash map, until one breaks the rule; what it committed stays.",
            "AIP-9, that a group stands as a whole: its members lie in one slot of storage and are written there together. On which updates may be committed, 01 alone.",
            vec![
                R::group_write(
                    KEY,
                    0,
                    0,
                    &[
                        (0, Value::exchanged(CREATION, 4)),
                        (1, Value::exchanged(MODIFICATION, 4)),
                    ],
                ),
                R::finalise(KEY, 0),
                R::last_committed(KEY),
            ],
        ),
    ]
}

fn exchange_to_a_deletion() -> Vec<Difference> {
    vec![difference(
        "An exchange to a deletion",
        "The Rust takes it, and a deletion stands in the committed group, over which a creation is then right. Ours refuses it by 3, so that no deletion is ever committed.",
        "01 alone: its table has \"no deletion\" beside kind 9, and its rule of the stores \"no committed deletion\".",
        vec![
            R::group_base(KEY, &[(0, Value::raw(CREATION, 4))]),
            R::exchange(KEY, 0, Value::exchanged(DELETION, 0)),
            R::last_committed(KEY),
            R::group_write(KEY, 0, 0, &[(0, Value::exchanged(CREATION, 4))]),
            R::finalise(KEY, 0),
        ],
    )]
}

fn absent_keys() -> Vec<Difference> {
    vec![
        difference(
            "An absent key and an empty key: groups",
            "The Rust panics where a key was never named and answers where one was named and emptied, even if only by a call that panicked. Ours answers alike.",
            "01 alone, which has both keys answer alike. It fits AIP-9, which fixes no members: a group of none is a group.",
            vec![
                R::group_remove(KEY, 0),
                R::last_committed(KEY),
                R::exchange(KEY, 0, number(1)),
                R::group_remove(KEY, 0),
                R::last_committed(KEY),
            ],
        ),
        difference(
            "An absent key and an empty key: materialising",
            "Two panics in the Rust, one refusal in ours.",
            "01 alone: 13 wherever what is read is neither Resolved nor Unresolved.",
            vec![
                R::materialise(KEY, 0),
                R::write(KEY, 0, 0, number(1)),
                R::remove(KEY, 0),
                R::materialise(KEY, 0),
            ],
        ),
    ]
}

fn estimates() -> Vec<Difference> {
    let write = |index: u32, tag: u8| {
        R::group_write(KEY, index, 0, &[(tag, Value::exchanged(CREATION, 4))])
    };
    vec![difference(
        "The choice among several estimates",
        "The Rust takes the first in the order of a hash map, which is another in each map. Ours takes the one of the lowest tag.",
        "the Block-STM paper, that the answer is a dependency: a reader that meets an estimate waits for the transaction that left it. On which of several, 01 alone: tags in rising order.",
        vec![
            R::group_base(KEY, &[]),
            write(5, 0),
            write(3, 1),
            R::group_estimate(KEY, 5),
            R::group_estimate(KEY, 3),
            R::group_size(KEY, 9),
        ],
    )]
}

fn indexes() -> Vec<Difference> {
    vec![
        difference(
            "Index 4,294,967,295",
            "The Rust adds 1 and overflows (built without overflow checks it was seen to wrap to the base), unless it meets an absent key or tag first. Ours refuses it by 4 before it looks at the stores.",
            "01 alone, which serves indexes up to 4,294,967,294. By the Block-STM paper a wrap to the base would be wrong: the reader would miss every version below it.",
            vec![
                R::fetch(KEY, TOO_HIGH),
                R::group_remove(KEY, TOO_HIGH),
                R::base(KEY, Value::raw(CREATION, 4)),
                R::fetch(KEY, TOO_HIGH),
                R::write(KEY, TOO_HIGH, 0, number(1)),
                R::group_base(KEY, &[(0, Value::raw(CREATION, 4))]),
                R::group_fetch(KEY, 1, TOO_HIGH),
                R::group_fetch(KEY, 0, TOO_HIGH),
                R::group_size(KEY, TOO_HIGH),
                R::finalise(KEY, TOO_HIGH),
            ],
        ),
        difference(
            "Materialising at 4,294,967,294",
            "It reads at the index plus 1, so here the Rust overflows one index earlier. Ours refuses it by 4.",
            "01 alone: materialising adds twice, so that 4,294,967,293 is the last index there.",
            vec![
                R::delta(KEY, TOO_HIGH - 1, Delta::plus(1, 9, 1, 0)),
                R::materialise(KEY, TOO_HIGH - 1),
            ],
        ),
    ]
}

/// What 01 adds: the Rust has maps without bounds and takes what its caller made.
fn limits() -> Vec<Difference> {
    let write = |index: u32| R::write(KEY, index, 0, number(1));
    let full = Difference {
        before: (0..512).map(write).collect(),
        caption: "512 writes, key 1, indexes 0 to 511",
        ..difference(
            "Lack of units",
            "The Rust grows. Ours refuses by 14 what its store has no unit for.",
            "01 alone: its stores are lent words, in which a data entry takes one unit.",
            vec![write(512), R::fetch(KEY, 513)],
        )
    };
    let field = difference(
        "Rules of fields",
        "The Rust takes a value of any length. Ours refuses by 3 what breaks a rule of 01's words.",
        "01 alone: a value has at most 1,048,576 bytes.",
        vec![R::write(KEY, 0, 0, Value::exchanged(CREATION, 1_048_577)), R::fetch(KEY, 1)],
    );
    vec![full, field]
}
