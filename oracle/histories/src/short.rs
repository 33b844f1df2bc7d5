//! Every history of up to three tickets over a small alphabet, one of data tickets and one of
//! group tickets. Reads at the end of each show the stores that it left.

use crate::history::History;
use request::value::{CREATION, DELETION, MODIFICATION};
use request::{Delta, Request as R, Value};

const KEY: u32 = 0;
const LONGEST: u32 = 3;

pub struct Alphabet {
    pub name: &'static str,
    letters: Vec<R>,
    reads: Vec<R>,
}

pub fn alphabets() -> [Alphabet; 2] {
    [data(), groups()]
}

impl Alphabet {
    pub fn histories(&self) -> usize {
        (0..=LONGEST).map(|n| self.letters.len().pow(n)).sum()
    }

    /// The shorter ones first; the last ticket turns fastest.
    pub fn history(&self, number: usize) -> History {
        let letters = self.letters.len();
        let (mut length, mut rest) = (0, number);
        while rest >= letters.pow(length) {
            rest -= letters.pow(length);
            length += 1;
        }
        let digits = (0..length).rev().map(|n| rest / letters.pow(n) % letters);
        let tickets = digits.map(|letter| &self.letters[letter]).chain(&self.reads);
        History::of(tickets.map(R::words).collect())
    }
}

fn number(number: u128) -> Value {
    Value::exchanged(CREATION, 16).number(number)
}

fn data() -> Alphabet {
    let letters = vec![
        R::base(KEY, Value::raw(CREATION, 16).number(100)),
        R::base(KEY, number(90)),
        R::base(KEY, Value::raw(DELETION, 0)),
        R::write(KEY, 0, 0, number(100)),
        R::write(KEY, 0, 1, number(100).layout(1)),
        R::write(KEY, 0, 1, Value::exchanged(DELETION, 0)),
        R::write(KEY, 1, 0, Value::exchanged(MODIFICATION, 5)),
        R::delta(KEY, 0, Delta::plus(20, 150, 20, 0)),
        R::delta(KEY, 1, Delta::plus(20, 119, 20, 0)),
        R::delta(KEY, 1, Delta::minus(80, 150, 0, 80)),
        R::delta(KEY, 2, Delta::minus(80, 150, 0, 80)),
        R::estimate(KEY, 0),
        R::estimate(KEY, 1),
        R::remove(KEY, 0),
        R::remove(KEY, 1),
        R::materialise(KEY, 0),
        R::materialise(KEY, 1),
    ];
    let reads = (0..4).map(|index| R::fetch(KEY, index)).collect();
    Alphabet { name: "data", letters, reads }
}

fn groups() -> Alphabet {
    let raw = |kind: u32| Value::raw(kind, 4);
    let new = |kind: u32| Value::exchanged(kind, 8);
    let gone = Value::exchanged(DELETION, 0);
    let letters = vec![
        R::group_base(KEY, &[]),
        R::group_base(KEY, &[(0, raw(CREATION))]),
        R::group_base(KEY, &[(0, raw(MODIFICATION)), (40, raw(CREATION))]),
        R::group_base(KEY, &[(0, Value::raw(DELETION, 0))]),
        R::exchange(KEY, 0, new(CREATION)),
        R::exchange(KEY, 40, new(MODIFICATION)),
        R::group_write(KEY, 0, 0, &[(0, new(CREATION))]),
        R::group_write(KEY, 0, 0, &[(0, new(MODIFICATION)), (40, new(CREATION))]),
        R::group_write(KEY, 1, 0, &[(0, gone)]),
        R::group_write(KEY, 1, 1, &[(40, new(CREATION))]),
        R::group_write(KEY, 1, 0, &[]),
        R::group_estimate(KEY, 0),
        R::group_estimate(KEY, 1),
        R::group_remove(KEY, 0),
        R::group_remove(KEY, 1),
        R::finalise(KEY, 0),
        R::finalise(KEY, 1),
    ];
    let mut reads = vec![R::last_committed(KEY)];
    for index in 0..3 {
        reads.push(R::group_size(KEY, index));
        reads.extend([0, 40].map(|tag| R::group_fetch(KEY, tag, index)));
    }
    Alphabet { name: "group", letters, reads }
}
