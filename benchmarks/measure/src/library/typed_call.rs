//! A request in the types of the crate, and the function of the crate that answers it.

use super::typed_words::Words;
use proved_mvhashmap::{
    DeltaOp, Layout, MVHashMap, SignedU128, Tag, ValueWithLayout, WriteOp, WriteOpKind,
};
use request::{
    value::{CREATION, MODIFICATION},
    Delta, Kind, Request, Value,
};

type Written = (WriteOp, Option<Layout>);

pub enum Call {
    LastCommitted(u32),
    Base(u32, ValueWithLayout),
    Write(u32, u32, u32, Written),
    Delta(u32, u32, DeltaOp),
    At(Kind, u32, u32),
    GroupBase(u32, Vec<(Tag, WriteOp)>),
    Exchange(u32, Tag, Written),
    GroupWrite(u32, u32, u32, Vec<(Tag, Written)>),
    GroupFetch(u32, Tag, u32),
}

/// Where answers go: `words` says what an answer is in 01's words, for who wants to know.
pub trait Sink {
    fn take<T, E>(&mut self, answer: Result<T, E>, words: impl FnOnce(Result<T, E>) -> Words);
}

impl Call {
    pub fn of(request: &Request) -> Call {
        match request {
            Request::LastCommitted { key } => Call::LastCommitted(*key),
            Request::Base { key, value } => Call::Base(*key, with_layout(value)),
            Request::Write { key, index, incarnation, value } => {
                Call::Write(*key, *index, *incarnation, written(value))
            }
            Request::Delta { key, index, delta } => Call::Delta(*key, *index, delta_op(delta)),
            Request::GroupBase { key, values } => {
                let values = values.iter().map(|(tag, value)| (small(*tag), write_op(value)));
                Call::GroupBase(*key, values.collect())
            }
            Request::Exchange { key, tag, value } => {
                Call::Exchange(*key, small(*tag as u8), written(value))
            }
            Request::GroupWrite { key, index, incarnation, values } => {
                let values = values.iter().map(|(tag, value)| (small(*tag), written(value)));
                Call::GroupWrite(*key, *index, *incarnation, values.collect())
            }
            Request::GroupFetch { key, tag, index } => {
                Call::GroupFetch(*key, small(*tag as u8), *index)
            }
            Request::At { kind, key, index } => Call::At(*kind, *key, *index),
        }
    }
}

#[inline(always)]
pub fn ask(map: &MVHashMap, call: &Call, sink: &mut impl Sink) {
    let (data, groups) = (map.data(), map.group_data());
    match call {
        Call::LastCommitted(key) => {
            sink.take(groups.get_last_committed_group(*key), Words::committed)
        }
        Call::Base(key, value) => sink.take(data.set_base_value(*key, *value), Words::done),
        Call::Write(key, index, incarnation, (value, layout)) => {
            sink.take(data.write(*key, *index, *incarnation, *value, *layout), Words::done)
        }
        Call::Delta(key, index, delta) => {
            sink.take(data.add_delta(*key, *index, *delta), Words::done)
        }
        Call::At(kind, key, index) => ask_at(map, *kind, *key, *index, sink),
        Call::GroupBase(key, values) => {
            sink.take(groups.set_raw_base_values(*key, values.iter().copied()), Words::done)
        }
        Call::Exchange(key, tag, (value, layout)) => {
            let done = groups.update_tagged_base_value_with_layout(*key, *tag, *value, *layout);
            sink.take(done, Words::done)
        }
        Call::GroupWrite(key, index, incarnation, values) => {
            let values = values.iter().copied();
            sink.take(groups.write(*key, *index, *incarnation, values), Words::outside)
        }
        Call::GroupFetch(key, tag, index) => {
            sink.take(groups.fetch_tagged_data(*key, *tag, *index), Words::tagged)
        }
    }
}

#[inline(always)]
fn ask_at(map: &MVHashMap, kind: Kind, key: u32, index: u32, sink: &mut impl Sink) {
    let (data, groups) = (map.data(), map.group_data());
    match kind {
        Kind::Estimate => sink.take(data.mark_estimate(key, index), Words::done),
        Kind::Remove => sink.take(data.remove(key, index), Words::done),
        Kind::Fetch => sink.take(data.fetch_data(key, index), Words::data),
        Kind::Materialise => sink.take(data.materialize_delta(key, index), Words::materialized),
        Kind::GroupEstimate => sink.take(groups.mark_estimate(key, index), Words::done),
        Kind::GroupRemove => sink.take(groups.remove(key, index), Words::done),
        Kind::GroupSize => sink.take(groups.get_group_size(key, index), Words::size),
        Kind::Finalise => sink.take(groups.finalize_group(key, index), Words::committed),
        other => unreachable!("{other:?} has more fields than a key and an index"),
    }
}

fn small(tag: u8) -> Tag {
    Tag::new(tag).expect("a tag is at most 63")
}

fn write_op(value: &Value) -> WriteOp {
    let kind = match value.kind() {
        CREATION => WriteOpKind::Creation,
        MODIFICATION => WriteOpKind::Modification,
        _ => WriteOpKind::Deletion,
    };
    WriteOp { kind, length: value.length(), number: value.number, handle: value.handle }
}

fn written(value: &Value) -> Written {
    (write_op(value), Layout::new(value.layout))
}

fn with_layout(value: &Value) -> ValueWithLayout {
    if value.is_exchanged() {
        ValueWithLayout::Exchanged(write_op(value), Layout::new(value.layout))
    } else {
        ValueWithLayout::RawFromStorage(write_op(value))
    }
}

fn delta_op(delta: &Delta) -> DeltaOp {
    DeltaOp {
        max_value: delta.limit,
        max_achieved_positive_delta: delta.highest,
        min_achieved_negative_delta: delta.lowest,
        update: match delta.sign {
            0 => SignedU128::Positive(delta.update),
            _ => SignedU128::Negative(delta.update),
        },
    }
}
