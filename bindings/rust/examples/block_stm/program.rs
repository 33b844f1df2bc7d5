//! Running programs: what they see, and what they leave.

use crate::op::{bounded, Change, Condition, Op, Pick};
use crate::random::Random;
use proved_mvhashmap::*;
use std::collections::BTreeMap;

/// What a transaction can read.
#[derive(Debug, Clone, Copy, PartialEq, Eq)]
pub enum Location {
    Data(Key),
    Member(Key, Tag),
    Size(Key),
}

/// What it sees there, without a version: the order of passes must not show in what a program does.
#[derive(Debug, Clone, Copy, PartialEq, Eq)]
pub enum Seen {
    Absent,
    Value(WriteOp, Option<Layout>),
    Number(u128),
    DeltaFailure,
    Size(GroupSize),
}

impl Seen {
    pub fn value(value: WriteOp, layout: Option<Layout>) -> Self {
        match value.kind {
            WriteOpKind::Deletion => Seen::Absent,
            _ => Seen::Value(value, layout),
        }
    }
}

pub type Members = BTreeMap<Tag, (WriteOp, Option<Layout>)>;

#[derive(Debug, Clone, Copy, PartialEq, Eq)]
pub enum Written {
    Value(WriteOp, Option<Layout>),
    Delta(DeltaOp),
}

/// All that a transaction leaves.
#[derive(Debug, Clone, Default, PartialEq, Eq)]
pub struct Output {
    pub data: BTreeMap<Key, Written>,
    pub groups: BTreeMap<Key, Members>,
}

/// A running program. It stops at each read, so that whoever runs it decides what comes between.
#[derive(Debug)]
pub struct Program<'a> {
    ops: &'a [Op],
    at: usize,
    asked: Option<Location>,
    digest: u64,
    last: Option<Seen>,
    output: Output,
}

impl<'a> Program<'a> {
    pub fn start(txn_idx: TxnIndex, ops: &'a [Op]) -> Self {
        let digest = mixed(0, u64::from(txn_idx));
        Program { ops, at: 0, asked: None, digest, last: None, output: Output::default() }
    }

    /// Runs on to the next read; none at the end.
    pub fn next_read(&mut self) -> Option<Location> {
        while let Some(&op) = self.ops.get(self.at) {
            self.asked = self.read_of(op);
            match self.asked.map(|location| (location, self.own(location))) {
                Some((location, None)) => return Some(location),
                Some((_, Some(seen))) => self.answer(seen),
                None => self.act(op),
            }
        }
        None
    }

    /// What the read it stopped at sees.
    pub fn answer(&mut self, seen: Seen) {
        self.digest = words_of(seen).into_iter().fold(self.digest, mixed);
        self.last = Some(seen);
        self.act(self.ops[self.at]);
    }

    pub fn output(self) -> Output {
        self.output
    }

    fn picked(&self, pick: Pick) -> u32 {
        pick.first + ((self.digest >> pick.shift) % u64::from(pick.among)) as u32
    }

    fn picked_tag(&self, pick: Pick) -> Tag {
        Tag::new(self.picked(pick) as u8).expect("a generated tag is below 64")
    }

    fn read_of(&self, op: Op) -> Option<Location> {
        match op {
            Op::Read(key) => Some(Location::Data(self.picked(key))),
            Op::ReadTag(key, tag) | Op::SetTag(key, tag) => {
                Some(Location::Member(self.picked(key), self.picked_tag(tag)))
            }
            Op::ReadSize(key) | Op::TouchGroup(key) => Some(Location::Size(self.picked(key))),
            _ => None,
        }
    }

    /// What the transaction wrote there itself. Its own deltas and updates stay out of what it
    /// reads of numbers and sizes: those are the values below it.
    fn own(&self, location: Location) -> Option<Seen> {
        let written = match location {
            Location::Data(key) => match self.output.data.get(&key)? {
                Written::Value(value, layout) => (*value, *layout),
                Written::Delta(_) => return None,
            },
            Location::Member(key, tag) => *self.output.groups.get(&key)?.get(&tag)?,
            Location::Size(_) => return None,
        };
        Some(Seen::value(written.0, written.1))
    }

    fn act(&mut self, op: Op) {
        self.at += 1;
        match op {
            Op::Read(_) | Op::ReadTag(..) | Op::ReadSize(_) => (),
            Op::Write(key) => {
                let kind = self.written_kind();
                self.put(key, Written::Value(self.value(kind), self.layout()));
            }
            Op::Delete(key) => {
                self.put(key, Written::Value(WriteOp::deletion(self.handle()), None));
            }
            Op::Reset(key, most) => {
                let number = bounded(self.wide(), most);
                let value = WriteOp::number(WriteOpKind::Modification, number, self.handle());
                self.put(key, Written::Value(value, None));
            }
            Op::AddDelta(key, change) => self.add_delta(key, change),
            Op::SetTag(..) => self.set_tag(),
            Op::TouchGroup(_) => self.touch_group(),
            Op::SkipIf(condition, count) => {
                if self.holds(condition) {
                    self.at += count;
                }
            }
        }
    }

    fn put(&mut self, key: Pick, written: Written) {
        self.output.data.insert(self.picked(key), written);
    }

    /// A delta over what the transaction wrote itself is left out.
    fn add_delta(&mut self, key: Pick, change: Change) {
        let delta = change.delta(self.wide());
        self.output.data.entry(self.picked(key)).or_insert(Written::Delta(delta));
    }

    /// A tag is set once: a second change would have to be joined with the first to keep to the
    /// commit rule.
    fn set_tag(&mut self) {
        let Some(Location::Member(key, tag)) = self.asked else { return };
        let written = match self.last {
            Some(Seen::Value(..)) if self.digest.is_multiple_of(3) => {
                (WriteOp::deletion(self.handle()), None)
            }
            Some(Seen::Value(..)) => (self.value(WriteOpKind::Modification), self.layout()),
            _ => (self.value(WriteOpKind::Creation), self.layout()),
        };
        self.output.groups.entry(key).or_default().entry(tag).or_insert(written);
    }

    fn touch_group(&mut self) {
        if let Some(Location::Size(key)) = self.asked {
            self.output.groups.entry(key).or_default();
        }
    }

    fn holds(&self, condition: Condition) -> bool {
        let failed = self.last == Some(Seen::DeltaFailure);
        match condition {
            Condition::Odd => self.digest % 2 == 1,
            Condition::Failed => failed,
            Condition::NotFailed => !failed,
        }
    }

    fn wide(&self) -> u128 {
        u128::from(self.digest) << 64 | u128::from(mixed(self.digest, 1))
    }

    /// Every value names all that was read before it, so that one wrong read shows.
    fn handle(&self) -> Handle {
        self.digest as Handle
    }

    fn written_kind(&self) -> WriteOpKind {
        match self.last {
            Some(Seen::Absent) => WriteOpKind::Creation,
            _ => WriteOpKind::Modification,
        }
    }

    fn value(&self, kind: WriteOpKind) -> WriteOp {
        match self.digest >> 8 & 3 {
            0 => WriteOp::bytes(kind, (self.digest >> 16 & 7) as u32, self.handle()),
            _ => WriteOp::number(kind, self.wide(), self.handle()),
        }
    }

    fn layout(&self) -> Option<Layout> {
        Layout::new((self.digest >> 24 & 3) as u32)
    }
}

fn mixed(digest: u64, word: u64) -> u64 {
    Random::seeded(digest.rotate_left(5) ^ word).next()
}

fn words_of(seen: Seen) -> [u64; 5] {
    let number = |number: u128| [number as u64, (number >> 64) as u64];
    match seen {
        Seen::Absent => [0; 5],
        Seen::Value(value, layout) => {
            let [low, high] = number(value.number);
            let head = u64::from(value.length) << 2 | value.kind as u64;
            let layout = u64::from(layout.map_or(0, Layout::get));
            [1, head, u64::from(value.handle) << 32 | layout, low, high]
        }
        Seen::Number(found) => {
            let [low, high] = number(found);
            [2, low, high, 0, 0]
        }
        Seen::DeltaFailure => [3; 5],
        Seen::Size(size) => [4, u64::from(size.members), u64::from(size.size), 0, 0],
    }
}
