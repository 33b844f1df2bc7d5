//! Request words in, answer words out.

use crate::{clock, contestant::Contestant, scenario::Scenario};
use proved_mvhashmap::{call, MVHashMap, Refusal, ANSWER_WORDS, UNIT_WORDS};
use request::{head_count, readable, Request};
use std::{hint::black_box, time::Duration};

/// The call for stores known to be valid, without a lock.
pub struct Inner {
    map: MVHashMap,
    units: usize,
    setup: Vec<Vec<u32>>,
    list: List,
}

/// The call for any words: it scans both stores first.
#[derive(Default)]
pub struct Open {
    stores: Stores,
    start: Stores,
    list: List,
}

#[derive(Default)]
struct Stores {
    data: Vec<u32>,
    group: Vec<u32>,
}

impl Default for Inner {
    fn default() -> Self {
        let map = MVHashMap::with_units(0, 0);
        Self { map, units: 0, setup: vec![], list: List::default() }
    }
}

impl Inner {
    fn restore(&mut self) {
        self.map = MVHashMap::with_units(self.units, self.units);
        let mut answer = [0; ANSWER_WORDS];
        for words in &self.setup {
            accepted(words, self.map.request_mut(words, &mut answer));
        }
    }
}

impl Contestant for Inner {
    fn name(&self) -> &'static str {
        "inner"
    }

    fn take(&mut self, scenario: &Scenario) {
        self.units = scenario.units;
        self.setup = scenario.sorted_setup().iter().map(Request::words).collect();
        self.list = List::of(&scenario.timed);
    }

    fn answers(&mut self, requests: &[Request]) -> Vec<Vec<u32>> {
        self.restore();
        List::of(requests).answers(|request, answer| self.map.request_mut(request, answer))
    }

    fn round(&mut self) -> (Duration, u64) {
        self.restore();
        self.list.timed(|request, answer| self.map.request_mut(request, answer))
    }
}

impl Open {
    fn restore(&mut self) {
        self.stores.data.clone_from(&self.start.data);
        self.stores.group.clone_from(&self.start.group);
    }
}

impl Contestant for Open {
    fn name(&self) -> &'static str {
        "open"
    }

    fn take(&mut self, scenario: &Scenario) {
        let mut data = vec![0; scenario.units * UNIT_WORDS];
        let mut group = data.clone();
        let mut answer = [0; ANSWER_WORDS];
        for request in scenario.sorted_setup() {
            let words = request.words();
            accepted(&words, call(&words, &mut data, &mut group, &mut answer));
        }
        self.start = Stores { data, group };
        self.list = List::of(&scenario.timed);
    }

    fn answers(&mut self, requests: &[Request]) -> Vec<Vec<u32>> {
        self.restore();
        let Stores { data, group } = &mut self.stores;
        List::of(requests).answers(|request, answer| call(request, data, group, answer))
    }

    fn round(&mut self) -> (Duration, u64) {
        self.restore();
        let Stores { data, group } = &mut self.stores;
        self.list.timed(|request, answer| call(request, data, group, answer))
    }

    /// It is slow, and the others' rounds are what is looked at.
    fn every(&self) -> usize {
        8
    }
}

fn accepted(request: &[u32], result: Result<(), Refusal>) {
    if let Err(refusal) = result {
        panic!("{}: {refusal}", readable::ticket(request));
    }
}

/// Requests that lie one after the other; each head says how long its request is.
#[derive(Default)]
struct List(Vec<u32>);

impl List {
    fn of(requests: &[Request]) -> Self {
        Self(requests.iter().flat_map(Request::words).collect())
    }

    #[inline(always)]
    fn each(&self, mut take: impl FnMut(&[u32])) {
        let mut rest = self.0.as_slice();
        while let Some(&head) = rest.first() {
            let (request, after) = rest.split_at(1 + head_count(head));
            take(request);
            rest = after;
        }
    }

    fn answers(
        &self,
        mut call: impl FnMut(&[u32], &mut [u32]) -> Result<(), Refusal>,
    ) -> Vec<Vec<u32>> {
        let mut answer = [0; ANSWER_WORDS];
        let mut answers = vec![];
        self.each(|request| {
            accepted(request, call(request, &mut answer));
            answers.push(answer[..=head_count(answer[0])].to_vec());
        });
        answers
    }

    #[inline(always)]
    fn timed(
        &self,
        mut call: impl FnMut(&[u32], &mut [u32]) -> Result<(), Refusal>,
    ) -> (Duration, u64) {
        let mut answer = [0; ANSWER_WORDS];
        clock::timed(|| {
            let mut sum = 0u64;
            self.each(|request| {
                let accepted = call(request, &mut answer).is_ok();
                let answer = black_box(&answer);
                sum = sum.wrapping_add(u64::from(accepted) + u64::from(answer[0] ^ answer[1]));
            });
            sum
        })
    }
}
