//! The block run one transaction after the other over plain maps: what every parallel run must
//! come to. Nothing here uses the store; deltas are applied one by one where the store merges.

use crate::block::{Block, Storage};
use crate::program::{Location, Members, Output, Program, Seen, Written};
use proved_mvhashmap::*;
use std::collections::BTreeMap;

/// What the sequential run leaves.
#[derive(Debug)]
pub struct Outcome {
    pub transactions: Vec<Committed>,
    pub values: BTreeMap<Key, Value>,
    pub groups: BTreeMap<Key, Members>,
}

/// What a transaction leaves when it is committed.
#[derive(Debug)]
pub struct Committed {
    pub output: Output,
    /// What each of its deltas comes to, materialised in the order of the block; none where the
    /// delta fails or stands over nothing.
    pub numbers: BTreeMap<Key, Option<u128>>,
    /// Each group that it updates, after it.
    pub groups: BTreeMap<Key, Members>,
}

/// A final value, and which transaction wrote it, if it was one.
#[derive(Debug, Clone, Copy, PartialEq, Eq)]
pub enum Value {
    Written(Option<TxnIndex>, WriteOp, Option<Layout>),
    Number(u128),
    DeltaFailure,
}

impl Outcome {
    pub fn of(block: &Block) -> Self {
        let mut state = State::over(&block.storage, &block.data_keys);
        let indexed = (0..).zip(&block.transactions);
        let transactions = indexed
            .map(|(txn_idx, ops)| {
                let output = state.run(Program::start(txn_idx, ops));
                state.commit(txn_idx, output)
            })
            .collect();
        let values = state.data.iter().map(|(key, cell)| (*key, cell.value())).collect();
        Outcome { transactions, values, groups: state.groups }
    }
}

struct State {
    data: BTreeMap<Key, Cell>,
    groups: BTreeMap<Key, Members>,
}

impl State {
    fn over(storage: &Storage, keys: &[Key]) -> Self {
        let cell = |key: &Key| {
            let (value, layout) = storage.value(*key);
            (*key, Cell::written(None, value, layout))
        };
        State { data: keys.iter().map(cell).collect(), groups: storage.groups().clone() }
    }

    fn run(&self, mut program: Program<'_>) -> Output {
        while let Some(location) = program.next_read() {
            program.answer(self.seen(location));
        }
        program.output()
    }

    fn seen(&self, location: Location) -> Seen {
        match location {
            Location::Data(key) => self.data[&key].seen(),
            Location::Member(key, tag) => match self.groups[&key].get(&tag) {
                Some((value, layout)) => Seen::Value(*value, *layout),
                None => Seen::Absent,
            },
            Location::Size(key) => Seen::Size(size(&self.groups[&key])),
        }
    }

    fn commit(&mut self, txn_idx: TxnIndex, output: Output) -> Committed {
        let mut numbers = BTreeMap::new();
        for (key, written) in &output.data {
            match written {
                Written::Value(value, layout) => {
                    self.data.insert(*key, Cell::written(Some(txn_idx), *value, *layout));
                }
                Written::Delta(delta) => {
                    let cell = self.data.get_mut(key).expect("every key has a cell");
                    numbers.insert(*key, cell.add(*delta));
                }
            }
        }
        let mut groups = BTreeMap::new();
        for (key, update) in &output.groups {
            let group = self.groups.get_mut(key).expect("every group is in storage");
            commit_update(group, update);
            groups.insert(*key, group.clone());
        }
        Committed { output, numbers, groups }
    }
}

/// The commit rule. A program keeps to it in the order of the block, whatever it did before that.
fn commit_update(group: &mut Members, update: &Members) {
    for (tag, (value, layout)) in update {
        let there = match value.kind {
            WriteOpKind::Deletion => group.remove(tag).is_some(),
            _ => group.insert(*tag, (*value, *layout)).is_some(),
        };
        assert_eq!(there, value.kind != WriteOpKind::Creation, "the generator: tag {tag:?}");
    }
}

/// The members and the sum of their lengths, with 1 for each.
pub fn size(group: &Members) -> GroupSize {
    let lengths = group.values().map(|(value, _)| value.length + 1);
    GroupSize { members: group.len() as u32, size: lengths.sum() }
}

/// What a key holds: a write, and the deltas since.
struct Cell {
    writer: Option<TxnIndex>,
    value: WriteOp,
    layout: Option<Layout>,
    deltas: Vec<DeltaOp>,
    /// The number after each delta was materialised in turn.
    number: Option<u128>,
}

impl Cell {
    fn written(writer: Option<TxnIndex>, value: WriteOp, layout: Option<Layout>) -> Self {
        let number = (value.kind != WriteOpKind::Deletion).then_some(value.number);
        Cell { writer, value, layout, deltas: Vec::new(), number }
    }

    fn add(&mut self, delta: DeltaOp) -> Option<u128> {
        self.deltas.push(delta);
        self.number = self.number.and_then(|number| applied(&delta, number));
        self.number
    }

    fn under_deltas(&self) -> bool {
        !self.deltas.is_empty() && self.value.kind != WriteOpKind::Deletion
    }

    /// What a transaction sees before anything is materialised: deltas of different limits do not
    /// merge.
    fn seen(&self) -> Seen {
        if !self.under_deltas() {
            return Seen::value(self.value, self.layout);
        }
        let limit = self.deltas[0].max_value;
        match self.number {
            Some(number) if self.deltas.iter().all(|delta| delta.max_value == limit) => {
                Seen::Number(number)
            }
            _ => Seen::DeltaFailure,
        }
    }

    /// What is left when all is materialised: then limits play no part any more.
    fn value(&self) -> Value {
        match (self.under_deltas(), self.number) {
            (false, _) => Value::Written(self.writer, self.value, self.layout),
            (true, Some(number)) => Value::Number(number),
            (true, None) => Value::DeltaFailure,
        }
    }
}

/// A delta over a number: neither its highest nor its lowest point may leave 0 to the limit.
fn applied(delta: &DeltaOp, number: u128) -> Option<u128> {
    let highest = number.checked_add(delta.max_achieved_positive_delta)?;
    if highest > delta.max_value || number < delta.min_achieved_negative_delta {
        return None;
    }
    match delta.update {
        SignedU128::Positive(size) => number.checked_add(size),
        SignedU128::Negative(size) => number.checked_sub(size),
    }
}
