//! The comparison before the timing finds a contestant that does other work.

use measure::{
    library::Inner,
    rounds::{measure, Measured},
    rows,
    scenario::Scenario,
    Contestant,
};
use request::{Kind, Request};
use std::time::Duration;

/// The inner call, with one word of one answer changed, or the last answer left out.
struct Wrong {
    inner: Inner,
    damage: fn(&mut Vec<Vec<u32>>),
}

impl Contestant for Wrong {
    fn name(&self) -> &'static str {
        "wrong"
    }

    fn take(&mut self, scenario: &Scenario) {
        self.inner.take(scenario);
    }

    fn answers(&mut self, requests: &[Request]) -> Vec<Vec<u32>> {
        let mut answers = self.inner.answers(requests);
        (self.damage)(&mut answers);
        answers
    }

    fn round(&mut self) -> (Duration, u64) {
        self.inner.round()
    }
}

fn pass(scenario: &Scenario, contestants: &mut [Box<dyn Contestant>]) {
    let mut measured = Measured::new(scenario, contestants);
    measure(scenario, contestants, 0.0, &mut measured);
}

fn measure_against(damage: fn(&mut Vec<Vec<u32>>)) {
    let wrong = Wrong { inner: Inner::default(), damage };
    let mut contestants: Vec<Box<dyn Contestant>> = vec![Box::<Inner>::default(), Box::new(wrong)];
    pass(&rows::all(32)[0], &mut contestants);
}

#[test]
fn the_undamaged_agree() {
    measure_against(|_| ());
}

#[test]
#[should_panic(expected = "request 7 (fetch")]
fn a_word_of_an_answer() {
    measure_against(|answers| answers[7][1] ^= 1);
}

#[test]
#[should_panic(expected = "left == right")]
fn an_answer_less() {
    measure_against(|answers| drop(answers.pop()));
}

/// Answers all rightly and does nothing of some kinds: only what it leaves is wrong.
struct Idle {
    right: Inner,
    lazy: Inner,
    left_out: &'static [Kind],
}

impl Contestant for Idle {
    fn name(&self) -> &'static str {
        "idle"
    }

    fn take(&mut self, scenario: &Scenario) {
        self.right.take(scenario);
        self.lazy.take(scenario);
    }

    fn answers(&mut self, requests: &[Request]) -> Vec<Vec<u32>> {
        let idle = |request: &Request| self.left_out.contains(&request.kind());
        let done: Vec<Request> = requests.iter().filter(|r| !idle(r)).cloned().collect();
        let mut done = self.lazy.answers(&done).into_iter();
        let right = self.right.answers(requests).into_iter();
        let answers = requests.iter().zip(right);
        answers.map(|(r, right)| if idle(r) { right } else { done.next().unwrap() }).collect()
    }

    fn round(&mut self) -> (Duration, u64) {
        self.right.round()
    }
}

fn idle_at(row: &str, units: usize, left_out: &'static [Kind]) {
    let scenario = rows::all(units).into_iter().find(|scenario| scenario.row == row);
    let idle = Idle { right: Inner::default(), lazy: Inner::default(), left_out };
    let mut contestants: Vec<Box<dyn Contestant>> = vec![Box::<Inner>::default(), Box::new(idle)];
    pass(&scenario.expect("a row of this name"), &mut contestants);
}

#[test]
fn nothing_left_out() {
    idle_at("mixed block", 64, &[]);
}

/// A row, its units, what is left out there, and where it is found.
type Planted = (&'static str, usize, &'static [Kind], &'static str);

/// A group's removal left out alone is told by the write that follows: it wrote outside what was
/// there, or not. A filling and emptying that is not done at all leaves the same, nothing: it is
/// found in the middle, where the store should be full; a missing removal is found at the end.
const PLANTED: [Planted; 7] = [
    ("rewrite", 32, &[Kind::Write], "(fetch key"),
    ("group rewrite", 32, &[Kind::GroupWrite], "(group fetch key"),
    ("group remove and write", 32, &[Kind::GroupRemove, Kind::GroupWrite], "(group fetch key"),
    ("group remove and write", 32, &[Kind::GroupRemove], "request 1 (group write key"),
    ("finalise of 60 tags", 512, &[Kind::Finalise], "(last committed key"),
    ("fill and empty rising", 16, &[Kind::Write, Kind::Remove], "request 496 (fetch key"),
    ("fill and empty at random", 256, &[Kind::Remove], "request 768 (fetch key"),
];

#[test]
fn edits_not_done() {
    for (row, units, left_out, found) in PLANTED {
        let pass = std::panic::catch_unwind(|| idle_at(row, units, left_out));
        let said = pass.expect_err(row).downcast::<String>().expect("a panic with its reason");
        assert!(said.contains(found), "{row}: {said}");
    }
}
