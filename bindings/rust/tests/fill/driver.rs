//! Sends each request to the model and to two pairs of stores, and compares all they say and leave.

use crate::common::lent::units_of;
use crate::common::words::{fetch, group_fetch, last_committed, tags_in};
use crate::guarded::{By, Pair};
use crate::model::{Model, Said};
use crate::plant::Plant;
use std::collections::{BTreeMap, BTreeSet};

/// How often each kind of request was answered so (the answer's kind) or refused so (the number).
pub type Met = BTreeMap<(u32, Result<u32, u32>), usize>;

pub struct Driver {
    /// What a failure is to be repeated by.
    round: String,
    pub model: Model,
    /// The first pair is asked by the inner call, the second now and then by the open one.
    pairs: [Pair; 2],
    /// The open call looks at every word of both stores, so that large ones see it seldom.
    open_every: usize,
    /// Refusals of so many requests are held to a copy of all words, which is as slow.
    copied_every: usize,
    asked: usize,
    data_places: BTreeSet<(u32, u32)>,
    tagged_places: BTreeSet<(u32, u32, u32)>,
    pub met: Met,
    pub plant: Option<Plant>,
}

impl Driver {
    pub fn with_words(round: String, data: usize, group: usize) -> Self {
        let model = Model::with_units(units_of(data), units_of(group));
        let units = units_of(data.max(group));
        Driver {
            round,
            model,
            pairs: [Pair::with_words(data, group), Pair::with_words(data, group)],
            open_every: 1 + units / 64,
            copied_every: 1 + units / 256,
            asked: 0,
            data_places: BTreeSet::new(),
            tagged_places: BTreeSet::new(),
            met: Met::new(),
            plant: None,
        }
    }

    pub fn ask(&mut self, request: Vec<u32>) -> Said {
        self.asked += 1;
        self.note_places(&request);
        let expected = self.model.answer(&request);
        let second = if self.asked.is_multiple_of(self.open_every) { By::Open } else { By::Inner };
        self.hold(0, By::Inner, &request, &expected);
        self.hold(1, second, &request, &expected);
        let outcome = expected.as_ref().map(|answer| answer[0] >> 28);
        let outcome = outcome.map_err(|refusal| refusal.number());
        *self.met.entry((request[0] >> 28, outcome)).or_default() += 1;
        expected
    }

    /// Asks one pair and holds its answer, and its words where the request is refused, to the
    /// model's.
    fn hold(&mut self, at: usize, by: By, request: &[u32], expected: &Said) {
        let planted = |plant: &&Plant| plant.request == request && plant.second == (at == 1);
        let fault = self.plant.as_ref().filter(planted).map(|plant| plant.fault);
        let pair = &mut self.pairs[at];
        let is_copied = expected.is_err() && self.asked.is_multiple_of(self.copied_every);
        let before = is_copied.then(|| pair.clone());
        let name = || format!("request {} of {}, {by:?}: {request:X?}", self.asked, self.round);
        let said = pair.ask(by, request, fault, name);
        let is_kept = before.is_none_or(|before| before == *pair);
        assert!(said == *expected, "said {said:X?}, not {expected:X?}: {}", name());
        assert!(pair.is_intact(), "a word outside the units is another: {}", name());
        assert!(is_kept, "a refusal changed a word: {}", name());
    }

    fn note_places(&mut self, request: &[u32]) {
        match request[0] >> 28 {
            2..=5 => {
                self.data_places.insert((request[1], request[2]));
            }
            10 => {
                let tags = tags_in(&request[4..]);
                self.tagged_places.extend(tags.map(|tag| (request[1], tag, request[2])));
            }
            _ => (),
        }
    }

    /// Reads above every place that is held, and every one that a request named since the last
    /// reading, and the committed values of their keys. Reading changes no word, and the pairs
    /// have the same words.
    pub fn read_back(&mut self) {
        let before = self.pairs[0].clone();
        for &(key, index) in &std::mem::take(&mut self.data_places) {
            self.ask(fetch(key, index + 1)).ok();
        }
        let tagged_places = std::mem::take(&mut self.tagged_places);
        for &(key, tag, index) in &tagged_places {
            self.ask(group_fetch(key, tag, index + 1)).ok();
        }
        let keys = tagged_places.iter().map(|place| place.0);
        for key in keys.chain(self.model.committed_keys()).collect::<BTreeSet<u32>>() {
            self.ask(last_committed(key)).ok();
        }
        self.data_places.extend(self.model.data_places());
        self.tagged_places.extend(self.model.tagged_places());
        assert!(self.pairs[0] == before, "reading changed a word: {}", self.round);
        assert!(self.pairs[1] == before, "the calls left other words: {}", self.round);
    }

    /// No trace of what was removed stays.
    pub fn data_is_clear(&self) {
        let clear = self.pairs.iter().all(|pair| pair.data.is_clear());
        assert!(clear, "a word stays in the empty data store: {}", self.round);
    }

    pub fn group_is_clear(&self) {
        let clear = self.pairs.iter().all(|pair| pair.group.is_clear());
        assert!(clear, "a word stays in the empty group store: {}", self.round);
    }
}
