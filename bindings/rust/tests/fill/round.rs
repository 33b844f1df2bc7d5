//! A round: two pairs of new stores that are filled, emptied and filled again.

use crate::common::random::Random;
use crate::driver::{Driver, Met};
use crate::orders::Order;
use crate::{data, group};
use proved_mvhashmap::UNIT_WORDS;

/// Keys and indexes in rising order, over the whole range of both.
pub struct Places {
    count: usize,
    /// How many places a key has.
    width: usize,
}

impl Places {
    /// Two of a key lie so far apart that one fits between them, and after the last.
    fn at(&self, n: usize, further: u32) -> (u32, u32) {
        let key_step = u32::MAX / (self.count / self.width + 2) as u32;
        let index_step = (u32::MAX - 2) / (2 * self.width as u32);
        let (key, index) = ((n / self.width) as u32, (n % self.width) as u32);
        (key * key_step, (2 * index + further) * index_step)
    }

    pub fn place(&self, n: usize) -> (u32, u32) {
        self.at(n, 0)
    }

    /// The place between this one and the next.
    pub fn between(&self, n: usize) -> (u32, u32) {
        self.at(n, 1)
    }

    /// As many as a store has units.
    pub fn all(&self) -> Vec<(u32, u32)> {
        (0..self.count).map(|n| self.place(n)).collect()
    }

    pub fn some(&self, random: &mut Random) -> (u32, u32) {
        let n = random.below(self.count as u32 + 1) as usize;
        self.at(n, random.below(2))
    }
}

#[derive(Debug, Clone, Copy)]
pub struct Plan {
    pub units: usize,
    /// Words past the last whole unit, of the data store and of the group store.
    pub more_words: [usize; 2],
    pub width: usize,
    pub fill: Order,
    pub empty: Order,
    pub seed: u64,
}

pub struct Round {
    pub plan: Plan,
    pub driver: Driver,
    pub random: Random,
    pub places: Places,
}

impl Round {
    pub fn new(plan: Plan) -> Self {
        let [data, group] = plan.more_words.map(|more| plan.units * UNIT_WORDS + more);
        let count = plan.units.min(proved_mvhashmap::MAX_UNITS);
        Round {
            plan,
            driver: Driver::with_words(format!("{plan:?}"), data, group),
            random: Random::seeded(plan.seed),
            places: Places { count, width: plan.width.max(1) },
        }
    }

    pub fn filled<T: Copy>(&mut self, items: &[T]) -> Vec<T> {
        self.plan.fill.of(items, &mut self.random)
    }

    pub fn emptied<T: Copy>(&mut self, items: &[T]) -> Vec<T> {
        self.plan.empty.of(items, &mut self.random)
    }

    /// Both stores in turn, so that a request that harms the other store is found too.
    pub fn run(mut self) -> Met {
        self.phase(data::fill, group::fill);
        self.phase(data::rewrite_at_full, group::grow_and_shrink);
        self.phase(data::refill_between, group::finalize_at_full);
        self.phase(data::empty_half_and_refill, group::finalize_all);
        self.phase(data::mix, group::mix);
        self.phase(data::empty, group::empty);
        self.driver.data_is_clear();
        self.driver.group_is_clear();
        std::mem::swap(&mut self.plan.fill, &mut self.plan.empty);
        self.phase(data::fill, group::fill);
        self.phase(data::empty, group::empty);
        self.driver.data_is_clear();
        self.driver.group_is_clear();
        self.driver.met
    }

    fn phase(&mut self, data: fn(&mut Round), group: fn(&mut Round)) {
        data(self);
        group(self);
        self.driver.read_back();
    }
}
