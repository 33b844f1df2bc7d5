//! The typed crate under its lock: what a Rust caller of the library has.

use super::{
    typed_call::{ask, Call, Sink},
    typed_words::Words,
};
use crate::{clock, contestant::Contestant, scenario::Scenario};
use proved_mvhashmap::MVHashMap;
use request::Request;
use std::{hint::black_box, time::Duration};

#[derive(Default)]
pub struct Typed {
    units: usize,
    setup: Vec<Call>,
    timed: Vec<Call>,
}

/// Takes every answer whole and keeps whether it was one.
#[derive(Default)]
struct Checksum(u64);

impl Sink for Checksum {
    #[inline(always)]
    fn take<T, E>(&mut self, answer: Result<T, E>, _: impl FnOnce(Result<T, E>) -> Words) {
        self.0 = self.0.wrapping_add(u64::from(black_box(&answer).is_ok()));
    }
}

/// Keeps the words of every answer.
#[derive(Default)]
struct Answers(Vec<Vec<u32>>);

impl Sink for Answers {
    fn take<T, E>(&mut self, answer: Result<T, E>, words: impl FnOnce(Result<T, E>) -> Words) {
        self.0.push(words(answer).0);
    }
}

impl Typed {
    fn start(&self) -> MVHashMap {
        let map = MVHashMap::with_units(self.units, self.units);
        for call in &self.setup {
            ask(&map, call, &mut Checksum::default());
        }
        map
    }
}

impl Contestant for Typed {
    fn name(&self) -> &'static str {
        "typed"
    }

    fn take(&mut self, scenario: &Scenario) {
        self.units = scenario.units;
        self.setup = scenario.sorted_setup().iter().map(Call::of).collect();
        self.timed = scenario.timed.iter().map(Call::of).collect();
    }

    fn answers(&mut self, requests: &[Request]) -> Vec<Vec<u32>> {
        let map = self.start();
        let mut answers = Answers::default();
        for request in requests {
            ask(&map, &Call::of(request), &mut answers);
        }
        answers.0
    }

    fn round(&mut self) -> (Duration, u64) {
        let map = self.start();
        clock::timed(|| {
            let mut sum = Checksum::default();
            for call in &self.timed {
                ask(&map, call, &mut sum);
            }
            sum.0
        })
    }
}
