//! Random tickets and histories, by profile.

use crate::{damage, history::History, profile::Profile, profiles, rng::Rng};
use request::value::{CREATION, DELETION, MODIFICATION};
use request::{Delta, Kind, Request, Tagged, Value};

/// The history of this number, and its profile's name.
pub fn history(seed: u64, number: u64) -> (&'static str, History) {
    let profile = profiles::of(number);
    let mut source = Source::new(profile, Rng::new(seed, number));
    let tickets = (0..profile.length).map(|_| source.ticket()).collect();
    let tail = match source.rng.chance(15) {
        true => damage::tail(&mut source.rng),
        false => Vec::new(),
    };
    (profile.name, History { tickets, tail })
}

pub struct Source {
    pub rng: Rng,
    profile: Profile,
}

impl Source {
    pub fn new(profile: Profile, rng: Rng) -> Self {
        Self { rng, profile }
    }

    pub fn ticket(&mut self) -> Vec<u32> {
        let words = self.request().words();
        match self.rng.chance(self.profile.damaged) {
            true => damage::ticket(&mut self.rng, words),
            false => words,
        }
    }

    pub fn index(&mut self) -> u32 {
        self.rng.pick(self.profile.indexes)
    }

    fn request(&mut self) -> Request {
        let kind = self.kind();
        let key = self.rng.pick(self.profile.keys);
        match kind {
            Kind::LastCommitted => Request::LastCommitted { key },
            Kind::Base => {
                let exchanged = self.rng.chance(40);
                let value = self.value(exchanged);
                Request::Base { key, value }
            }
            Kind::Write => Request::Write {
                key,
                index: self.index(),
                incarnation: self.rng.pick(self.profile.incarnations),
                value: self.value(true),
            },
            Kind::Delta => Request::Delta { key, index: self.index(), delta: self.delta() },
            Kind::GroupBase => Request::GroupBase { key, values: self.tagged(false) },
            Kind::Exchange => {
                // A deletion here is a fault that damaged words seldom have.
                let value = match self.rng.chance(self.profile.damaged) {
                    true => self.value(true),
                    false => self.undeleted(true),
                };
                Request::Exchange { key, tag: self.tag(), value }
            }
            Kind::GroupWrite => Request::GroupWrite {
                key,
                index: self.index(),
                incarnation: self.rng.pick(self.profile.incarnations),
                values: self.tagged(true),
            },
            Kind::GroupFetch => Request::GroupFetch { key, tag: self.tag(), index: self.index() },
            _ => Request::at(kind, key, self.index()),
        }
    }

    fn kind(&mut self) -> Kind {
        let total: u32 = self.profile.kinds.iter().map(|(_, weight)| weight).sum();
        let mut at = self.rng.below(total as usize) as u32;
        for (kind, weight) in self.profile.kinds {
            if at < *weight {
                return *kind;
            }
            at -= weight;
        }
        unreachable!("the weights' sum bounds the draw")
    }

    fn tag(&mut self) -> u32 {
        u32::from(self.rng.pick(self.profile.tags))
    }

    fn value(&mut self, exchanged: bool) -> Value {
        match self.rng.chance(self.profile.deletions) {
            true => self.with_kind(DELETION, exchanged),
            false => self.undeleted(exchanged),
        }
    }

    fn undeleted(&mut self, exchanged: bool) -> Value {
        let kind = self.rng.pick(&[CREATION, MODIFICATION]);
        self.with_kind(kind, exchanged)
    }

    fn with_kind(&mut self, kind: u32, exchanged: bool) -> Value {
        let length = match kind {
            DELETION => 0,
            _ => self.rng.pick(self.profile.lengths),
        };
        let value = match exchanged {
            true => Value::exchanged(kind, length).layout(self.rng.pick(self.profile.layouts)),
            false => Value::raw(kind, length),
        };
        let value = value.handle(self.rng.below(1000) as u32);
        match length {
            16 => value.number(self.number()),
            _ => value,
        }
    }

    /// Mostly of one kind: an update of many kinds seldom keeps the commit rule.
    fn tagged(&mut self, exchanged: bool) -> Tagged {
        let all = self.rng.chance(self.profile.whole_sets);
        let share = self.rng.pick(&[0, 20, 50, 50]);
        let kind = match self.rng.chance(self.profile.deletions) {
            true => DELETION,
            false => self.rng.pick(&[CREATION, CREATION, MODIFICATION]),
        };
        let mixed = self.rng.chance(25);
        let tags = self.profile.tags;
        let mut values = Tagged::new();
        for tag in tags {
            if all || self.rng.chance(share) {
                let value = match mixed {
                    true => self.value(exchanged),
                    false => self.with_kind(kind, exchanged),
                };
                values.push((*tag, value));
            }
        }
        values
    }

    fn number(&mut self) -> u128 {
        let usual = self.rng.pick(self.profile.numbers);
        self.or_wild(usual)
    }

    fn step(&mut self) -> u128 {
        let usual = self.rng.pick(self.profile.steps);
        self.or_wild(usual)
    }

    fn or_wild(&mut self, usual: u128) -> u128 {
        if !self.rng.chance(self.profile.wild) {
            return usual;
        }
        let any = u128::from(self.rng.draw()) << 64 | u128::from(self.rng.draw());
        any >> self.rng.below(128)
    }

    /// Valid: what is drawn is cut to its limit.
    fn delta(&mut self) -> Delta {
        let limit = self.rng.pick(self.profile.limits);
        let (highest, lowest) = (self.step().min(limit), self.step().min(limit));
        let whole = self.rng.chance(50);
        let update = if whole { u128::MAX } else { self.step() };
        match (self.rng.chance(50), update.min(lowest)) {
            (false, _) | (true, 0) => Delta::plus(update.min(highest), limit, highest, lowest),
            (true, update) => Delta::minus(update, limit, highest, lowest),
        }
    }
}
