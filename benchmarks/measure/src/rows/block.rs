//! A mixed block, as Block-STM would ask for it: transactions read and write in order, some are
//! aborted, waited for and run again, and all are committed at the end. It starts from empty
//! stores and ends with 15 of 16 data units held.

use super::{held, spread_keys, value};
use crate::scenario::Scenario;
use histories::rng::Rng;
use request::{
    value::{CREATION, MODIFICATION},
    Delta, Request, Tagged, Value,
};
use std::collections::BTreeSet;

/// Data reads of a transaction.
const READS: usize = 8;
/// Tags of a group's base, and of an update.
const TAGS: u8 = 4;
const UPDATE_TAGS: u8 = 2;
const UPDATE_UNITS: usize = 1 + UPDATE_TAGS as usize;

pub fn mixed(units: usize) -> Scenario {
    let mut block = Block::new(units);
    while block.data_units + 2 <= held(units) {
        block.transaction();
    }
    block.commit();
    Scenario::of("mixed block", units, vec![], block.requests)
}

/// What a transaction has written, to be marked, written again and committed.
#[derive(Clone, Copy)]
enum Effect {
    Write(u32),
    Delta(u32),
    Group(u32, u8),
}

struct Block {
    rng: Rng,
    requests: Vec<Request>,
    keys: Vec<u32>,
    aggregators: Vec<u32>,
    groups: Vec<u32>,
    /// Keys whose base was read from storage.
    based: BTreeSet<u32>,
    data_units: usize,
    /// Group updates for which there is room yet.
    updates_left: usize,
    /// The effects of each transaction.
    effects: Vec<Vec<Effect>>,
}

impl Block {
    fn new(units: usize) -> Self {
        let mut rng = Rng::new(6, units as u64);
        let groups = (units / 64).max(1);
        let of_base = 1 + 2 * usize::from(TAGS);
        Self {
            keys: spread_keys(&mut rng, (units / 8).max(2)),
            aggregators: spread_keys(&mut rng, (units / 128).max(1)),
            groups: spread_keys(&mut rng, groups),
            rng,
            requests: vec![],
            based: BTreeSet::new(),
            data_units: 0,
            updates_left: (held(units) - groups * of_base) / UPDATE_UNITS,
            effects: vec![],
        }
    }

    /// The next transaction runs; in one of six cases the one before it then turns out to have
    /// read what has changed.
    fn transaction(&mut self) {
        let index = self.effects.len() as u32;
        self.reads(index);
        let effects = self.draw_effects();
        for effect in &effects {
            self.record(index, 0, *effect);
        }
        self.effects.push(effects);
        if index > 0 && self.rng.below(6) == 0 {
            self.run_again(index - 1);
        }
    }

    fn reads(&mut self, index: u32) {
        for _ in 0..READS {
            let key = self.skewed();
            self.read(key, index, Value::raw(MODIFICATION, 100));
        }
        if self.rng.chance(40) {
            let key = self.rng.pick(&self.aggregators);
            self.read(key, index, Value::raw(CREATION, 16).number(1000));
        }
        if self.rng.chance(30) {
            self.read_group(index);
        }
    }

    /// Low keys more often, as some accounts are.
    fn skewed(&mut self) -> u32 {
        let bound = 1 + self.rng.below(self.keys.len());
        self.keys[self.rng.below(bound)]
    }

    /// The first reader of a key brings its base from storage.
    fn read(&mut self, key: u32, index: u32, base: Value) {
        self.requests.push(Request::fetch(key, index));
        if self.based.insert(key) {
            self.data_units += 1;
            self.requests.push(Request::base(key, base));
            self.requests.push(Request::fetch(key, index));
        }
    }

    fn read_group(&mut self, index: u32) {
        let key = self.rng.pick(&self.groups);
        if self.based.insert(key) {
            let tags = 0..TAGS;
            let values: Tagged = tags.map(|tag| (tag, Value::raw(CREATION, 40))).collect();
            self.requests.push(Request::group_base(key, &values));
        }
        for _ in 0..2 {
            let tag = self.rng.below(usize::from(TAGS)) as u32;
            self.requests.push(Request::group_fetch(key, tag, index));
        }
        self.requests.push(Request::group_size(key, index));
    }

    /// Only keys that were read before are written, so each has its base.
    fn draw_effects(&mut self) -> Vec<Effect> {
        let mut effects = vec![];
        let key = self.skewed();
        if self.based.contains(&key) {
            effects.push(Effect::Write(key));
            self.data_units += 1;
        }
        let key = self.rng.pick(&self.aggregators);
        if self.based.contains(&key) && self.rng.chance(40) {
            effects.push(Effect::Delta(key));
            self.data_units += 1;
        }
        let key = self.rng.pick(&self.groups);
        if self.based.contains(&key) && self.updates_left > 0 && self.rng.chance(20) {
            let first = self.rng.below(usize::from(TAGS - UPDATE_TAGS + 1)) as u8;
            effects.push(Effect::Group(key, first));
            self.updates_left -= 1;
        }
        effects
    }

    fn record(&mut self, index: u32, incarnation: u32, effect: Effect) {
        let value = value(self.rng.word());
        self.requests.push(match effect {
            Effect::Write(key) => Request::write(key, index, incarnation, value),
            Effect::Delta(key) => {
                let by = 1 + self.rng.below(9) as u128;
                Request::delta(key, index, Delta::plus(by, u128::MAX / 2, by, 0))
            }
            Effect::Group(key, first) => {
                let tags = first..first + UPDATE_TAGS;
                let values: Tagged = tags.map(|tag| (tag, value)).collect();
                Request::group_write(key, index, incarnation, &values)
            }
        });
    }

    /// What it wrote becomes an estimate, a later transaction meets it, and it runs again; in one
    /// of four cases its write goes to another key then, and the old one is removed.
    fn run_again(&mut self, index: u32) {
        let mut effects = self.effects[index as usize].clone();
        for effect in &effects {
            self.requests.push(match *effect {
                Effect::Write(key) | Effect::Delta(key) => Request::estimate(key, index),
                Effect::Group(key, _) => Request::group_estimate(key, index),
            });
        }
        self.reads(index + 2);
        self.reads(index);
        if let Some(Effect::Write(key)) = effects.first_mut() {
            let other = self.skewed();
            if self.based.contains(&other) && self.rng.chance(25) {
                self.requests.push(Request::remove(*key, index));
                *key = other;
            }
        }
        for effect in &effects {
            self.record(index, 1, *effect);
        }
        self.effects[index as usize] = effects;
    }

    /// In the order of the block: shortcuts for deltas, updates into the committed groups.
    fn commit(&mut self) {
        for (index, effects) in self.effects.iter().enumerate() {
            for effect in effects {
                match *effect {
                    Effect::Write(_) => {}
                    Effect::Delta(key) => {
                        self.requests.push(Request::materialise(key, index as u32));
                    }
                    Effect::Group(key, _) => {
                        self.requests.push(Request::finalise(key, index as u32));
                    }
                }
            }
        }
        for key in &self.groups {
            if self.based.contains(key) {
                self.requests.push(Request::last_committed(*key));
            }
        }
    }
}
