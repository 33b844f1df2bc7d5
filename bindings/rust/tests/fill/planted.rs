//! The comparisons find planted faults, each by the part that is to find it; and without one they
//! are content.

use crate::common::words::*;
use crate::driver::Driver;
use crate::guarded::Place::{self, *};
use crate::model::Model;
use crate::plant::Fault::{self, *};
use crate::plant::Plant;
use crate::round::Round;
use proved_mvhashmap::UNIT_WORDS;
use std::panic::{catch_unwind, AssertUnwindSafe};

const DATA_HANDLE: u32 = 0x5EED_0001;
const GROUP_HANDLE: u32 = 0x5EED_0002;

fn first_write() -> Vec<u32> {
    write(1, 0, 0, value(1 << 29 | 16, 0, DATA_HANDLE, 7))
}

fn one_too_many() -> Vec<u32> {
    write(2, 2, 0, numbered(1))
}

fn first_group_write() -> Vec<u32> {
    group_write(
        1,
        0,
        0,
        &[(3, exchanged(CREATION, 1)), (4, value(1 << 29 | 1, 0, GROUP_HANDLE, 0))],
    )
}

/// A short list that meets every comparison. A store with a word that makes it invalid is not
/// asked again: what looks for such a word comes right after the requests that are to be planted.
fn run(plant: Option<Plant>) {
    let words = [3, 4].map(|units| units * UNIT_WORDS + 5);
    let mut driver = Driver::with_words("a planted fault".into(), words[0], words[1]);
    driver.plant = plant;
    let full = [
        first_write(),
        write(1, 2, 0, numbered(2)),
        add_delta(2, 0, &plus(1, 9)),
        one_too_many(),
        fetch(1, 1),
        first_group_write(),
        finalize(1, 0),
    ];
    full.into_iter().for_each(|request| drop(driver.ask(request)));
    driver.read_back();
    driver.ask(group_remove(1, 0)).unwrap();
    driver.group_is_clear();
    for request in [remove(1, 0), remove(1, 2), remove(2, 0)] {
        driver.ask(request).unwrap();
    }
    driver.data_is_clear();
}

fn found(run: impl FnOnce()) -> String {
    let panic = catch_unwind(AssertUnwindSafe(run)).expect_err("a fault is planted");
    *panic.downcast::<String>().expect("a message with what differs")
}

fn finds(fault: Fault, request: Vec<u32>, part: &str) {
    for (second, by) in [(false, "Inner"), (true, "Open")] {
        let plant = Plant { fault, request: request.clone(), second };
        let name = format!("{plant:?}");
        let message = found(|| run(Some(plant)));
        let part = part.replace("Inner", by);
        assert!(message.contains(&part), "{name}: {part:?} is not in {message:?}");
    }
}

#[test]
fn no_fault_no_difference() {
    run(None);
}

#[test]
fn an_answer_or_a_refusal_that_differs() {
    finds(Answer, fetch(1, 1), "not Ok([10000009, 0, 0, 20000010, 0, 5EED0001, 7, 0, 0, 0])");
    finds(Answer, first_write(), "said Ok([80000000]), not Ok([0])");
    finds(Exhausted, first_write(), "said Err(UnitsExhausted), not Ok([0])");
    finds(Exhausted, fetch(1, 1), "said Err(UnitsExhausted), not Ok([10000009");
    finds(PastAnswer, fetch(1, 1), "words past the answer, Ok(()): request 5");
    finds(PastAnswer, one_too_many(), "words past the answer, Err(UnitsExhausted): request 4");
}

#[test]
fn a_request_that_is_forgotten() {
    finds(Forgotten, first_write(), "said Ok([0]), not Err(UnitsExhausted)");
    finds(Forgotten, first_group_write(), "said Ok([0]), not Ok([A0000000])");
    finds(Forgotten, one_too_many(), "said Ok([0]), not Err(UnitsExhausted)");
    finds(Forgotten, remove(1, 0), "a word stays in the empty data store");
    finds(Forgotten, group_remove(1, 0), "a word stays in the empty group store");
}

#[test]
fn a_word_outside_the_units() {
    for place in [Before, After, PastUnits] {
        for fault in [Data as fn(Place) -> Fault, Group] {
            for request in [first_write(), one_too_many(), fetch(1, 1), group_remove(1, 0)] {
                finds(fault(place), request, "a word outside the units is another");
            }
        }
    }
}

#[test]
fn a_word_of_the_units() {
    for fault in [Data as fn(Place) -> Fault, Group] {
        for refused in [one_too_many(), finalize(1, 0)] {
            finds(fault(LastOfUnits), refused, "a refusal changed a word");
        }
    }
    finds(Data(LastOfUnits), remove(2, 0), "a word stays in the empty data store");
    finds(Group(LastOfUnits), group_remove(1, 0), "a word stays in the empty group store");
    // A handle is any word, so the store stays valid; the value is another when it is read.
    finds(Data(Holding(DATA_HANDLE)), first_write(), "Inner: [60000002, 1, 1]");
    finds(Group(Holding(GROUP_HANDLE)), first_group_write(), "Inner: [D0000003, 1, 4, 1]");
}

#[test]
fn a_read_that_writes() {
    // The last request of the reading.
    let plant = |second| Plant { fault: Data(LastOfUnits), request: last_committed(1), second };
    let first = found(|| run(Some(plant(false))));
    assert!(first.contains("reading changed a word"), "{first:?}");
    let second = found(|| run(Some(plant(true))));
    assert!(second.contains("the calls left other words"), "{second:?}");
}

/// A round meets 14 at the very unit: a model with one more or one fewer differs.
#[test]
fn a_model_of_other_units() {
    let units = 9;
    let early = "said Err(UnitsExhausted), not Ok";
    let late = "not Err(UnitsExhausted)";
    for (data, group, part) in [(10, 9, early), (8, 9, late), (9, 10, early), (9, 8, late)] {
        for number in 0..6 {
            let mut round = Round::new(crate::plan(units, number));
            round.driver.model = Model::with_units(data, group);
            let message = found(|| drop(round.run()));
            assert!(message.contains(part), "{data} and {group}: {message:?}");
        }
    }
}
