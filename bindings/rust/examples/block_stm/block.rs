//! Generated blocks: what storage holds, and the transactions.

use crate::op::{Change, Condition, Op, Pick};
use crate::program::Members;
use crate::random::Random;
use proved_mvhashmap::*;
use std::collections::BTreeMap;
use std::ops::Range;

/// Aggregators are keys of their own: they hold numbers without a layout, or nothing.
const FIRST_AGGREGATOR: Key = 100;

#[derive(Debug)]
pub struct Block {
    pub storage: Storage,
    pub transactions: Vec<Vec<Op>>,
    pub data_keys: Vec<Key>,
    pub group_keys: Range<Key>,
}

/// What was there before the block. It never changes, so a base set twice is the same base.
#[derive(Debug, Default)]
pub struct Storage {
    data: BTreeMap<Key, (WriteOp, Option<Layout>)>,
    groups: BTreeMap<Key, Members>,
}

impl Storage {
    /// What storage has at a key: a deletion where it has nothing, as in the old executor.
    pub fn value(&self, key: Key) -> (WriteOp, Option<Layout>) {
        self.data.get(&key).copied().unwrap_or((WriteOp::deletion(0), None))
    }

    pub fn group(&self, key: Key) -> &Members {
        &self.groups[&key]
    }

    pub fn groups(&self) -> &BTreeMap<Key, Members> {
        &self.groups
    }
}

impl Block {
    pub fn len(&self) -> TxnIndex {
        self.transactions.len() as TxnIndex
    }

    pub fn generated(seed: u64) -> Self {
        Generator::seeded(seed).block()
    }
}

/// The few keys of a block, so that its transactions meet.
struct Generator {
    random: Random,
    plain: u32,
    limits: Vec<u128>,
    groups: u32,
    first_tag: u32,
    tags: u32,
}

impl Generator {
    fn seeded(seed: u64) -> Self {
        let mut random = Random::seeded(seed);
        let plain = 2 + random.below(5);
        let aggregators = 1 + random.below(3);
        let limits = (0..aggregators).map(|_| random.pick(&[60, 150, 1 << 70, u128::MAX]));
        let limits = limits.collect();
        let groups = 1 + random.below(2);
        // The set of tags has two words: some groups lie in one, some in the other, some in both.
        let first_tag = random.pick(&[0, 29, 58]);
        let tags = 2 + random.below(5);
        Generator { random, plain, limits, groups, first_tag, tags }
    }

    fn block(mut self) -> Block {
        let storage = self.storage();
        // Most blocks are small, for many of them in little time.
        let most = if self.random.chance(8) { 60 } else { 18 };
        let count = 2 + self.random.below(most);
        let aggregators = FIRST_AGGREGATOR..FIRST_AGGREGATOR + self.limits.len() as u32;
        Block {
            storage,
            transactions: (0..count).map(|_| self.transaction()).collect(),
            data_keys: (0..self.plain).chain(aggregators).collect(),
            group_keys: 0..self.groups,
        }
    }

    fn storage(&mut self) -> Storage {
        let mut storage = Storage::default();
        for key in 0..self.plain {
            if !self.random.chance(3) {
                let value = self.stored(WriteOpKind::Modification);
                storage.data.insert(key, value);
            }
        }
        for (key, limit) in (FIRST_AGGREGATOR..).zip(self.limits.clone()) {
            if !self.random.chance(6) {
                let number = self.random.number() % (limit / 2);
                let handle = self.random.word();
                let value = WriteOp::number(WriteOpKind::Modification, number, handle);
                storage.data.insert(key, (value, None));
            }
        }
        for key in 0..self.groups {
            let members = self.members();
            storage.groups.insert(key, members);
        }
        storage
    }

    /// A first base is committed, so its members are creations.
    fn members(&mut self) -> Members {
        let tags = self.first_tag..self.first_tag + self.tags;
        let mut members = Members::new();
        for tag in tags.filter_map(|tag| Tag::new(tag as u8)) {
            if self.random.chance(2) {
                members.insert(tag, self.stored(WriteOpKind::Creation));
            }
        }
        members
    }

    fn stored(&mut self, kind: WriteOpKind) -> (WriteOp, Option<Layout>) {
        let handle = self.random.word();
        let value = match self.random.chance(2) {
            true => WriteOp::bytes(kind, self.random.below(16), handle),
            false => WriteOp::number(kind, self.random.number(), handle),
        };
        (value, Layout::new(self.random.below(3)))
    }

    fn transaction(&mut self) -> Vec<Op> {
        let parts = 1 + self.random.below(3);
        (0..parts).flat_map(|_| self.part()).collect()
    }

    fn part(&mut self) -> Vec<Op> {
        match self.random.below(10) {
            0 | 1 => vec![Op::Read(self.key()), Op::Read(self.key()), Op::Write(self.key())],
            2 => vec![
                Op::Read(self.key()),
                Op::SkipIf(Condition::Odd, 1),
                Op::Delete(self.key()),
                Op::Write(self.key()),
            ],
            3 => vec![self.delta()],
            4 => vec![Op::Read(self.key()), self.delta(), self.delta()],
            5 => self.aggregator_read(),
            6 => vec![self.set_tag(), self.set_tag()],
            7 => vec![
                Op::ReadSize(self.group()),
                Op::SkipIf(Condition::Odd, 1),
                self.set_tag(),
                Op::Write(self.key()),
            ],
            8 => vec![Op::ReadTag(self.group(), self.tag()), self.set_tag(), self.delta()],
            _ => vec![Op::Read(self.key()), self.group_touch()],
        }
    }

    /// A reader of an aggregator whose deltas failed puts it right, or deletes it.
    fn aggregator_read(&mut self) -> Vec<Op> {
        let (aggregator, limit) = self.aggregator();
        let repair = match self.random.chance(4) {
            true => Op::Delete(aggregator),
            false => Op::Reset(aggregator, limit),
        };
        vec![
            Op::Read(aggregator),
            Op::SkipIf(Condition::NotFailed, 1),
            repair,
            Op::SkipIf(Condition::Failed, 1),
            Op::Write(self.key()),
        ]
    }

    fn group_touch(&mut self) -> Op {
        Op::TouchGroup(self.group())
    }

    fn set_tag(&mut self) -> Op {
        Op::SetTag(self.group(), self.tag())
    }

    fn delta(&mut self) -> Op {
        let (aggregator, limit) = self.aggregator();
        // Deltas of different limits do not merge; that is rare, as is one that overflows alone.
        let limit = if self.random.chance(16) { limit - 1 } else { limit };
        let most = if self.random.chance(8) { limit } else { limit / 12 };
        let reach = if self.random.chance(3) { most / 2 } else { 0 };
        Op::AddDelta(aggregator, Change { limit, most, minus: self.random.chance(3), reach })
    }

    /// One aggregator, not chosen by what was read: its limit goes with it.
    fn aggregator(&mut self) -> (Pick, u128) {
        let at = self.random.below(self.limits.len() as u32);
        let pick = Pick { first: FIRST_AGGREGATOR + at, among: 1, shift: 0 };
        (pick, self.limits[at as usize])
    }

    fn key(&mut self) -> Pick {
        self.pick(0, self.plain)
    }

    fn group(&mut self) -> Pick {
        self.pick(0, self.groups)
    }

    fn tag(&mut self) -> Pick {
        self.pick(self.first_tag, self.tags)
    }

    /// Half of the picks are fixed, half go by what was read.
    fn pick(&mut self, first: u32, among: u32) -> Pick {
        let shift = self.random.below(32);
        match self.random.chance(2) {
            true => Pick { first: first + self.random.below(among), among: 1, shift },
            false => Pick { first, among, shift },
        }
    }
}
