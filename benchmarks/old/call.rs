//! Requests in the old types, and the public functions of the old product that answer them.

use crate::{
    convert::{delta_op, held, layout, with_layout, Held},
    sink::Sink,
};
use aptos_aggregator::delta_change_set::DeltaOp;
use move_core_types::value::MoveTypeLayout;
use mvhashmap::{
    types::ValueWithLayout, versioned_data::VersionedData, versioned_group_data::VersionedGroupData,
};
use request::{Kind, Request};
use std::sync::Arc;

type Written = (Held, Option<Arc<MoveTypeLayout>>);

/// The fields of a request that are single words.
struct Head {
    kind: Kind,
    tag: u8,
    key: u32,
    index: u32,
    incarnation: u32,
}

/// A list of requests as the callers of the old product would hold them: what a call takes by
/// value lies in a list of its own, in the order of the requests. An enum of all kinds would be
/// moved whole for every call, which measured as 6 ns that no caller has.
#[derive(Default)]
pub struct Calls {
    heads: Vec<Head>,
    bases: Vec<ValueWithLayout<Held>>,
    written: Vec<Written>,
    deltas: Vec<DeltaOp>,
    group_bases: Vec<Vec<(u8, Held)>>,
    updates: Vec<Vec<(u8, Written)>>,
}

impl Calls {
    pub fn of(requests: &[Request]) -> Self {
        let mut calls = Self::default();
        for request in requests {
            calls.push(request);
        }
        calls
    }

    fn push(&mut self, request: &Request) {
        let to_written = |value| (held(value), layout(value));
        let words = request.words();
        let kind = request.kind();
        let mut head = Head {
            kind,
            tag: 0,
            key: words[1],
            index: kind.index(&words).unwrap_or(0),
            incarnation: 0,
        };
        match request {
            Request::Base { value, .. } => self.bases.push(with_layout(value)),
            Request::Write { incarnation, value, .. } => {
                head.incarnation = *incarnation;
                self.written.push(to_written(value));
            }
            Request::Delta { delta, .. } => self.deltas.push(delta_op(delta)),
            Request::GroupBase { values, .. } => {
                let values = values.iter().map(|(tag, value)| (*tag, held(value)));
                self.group_bases.push(values.collect());
            }
            Request::Exchange { tag, value, .. } => {
                head.tag = small(*tag);
                self.written.push(to_written(value));
            }
            Request::GroupWrite { incarnation, values, .. } => {
                head.incarnation = *incarnation;
                let values = values.iter().map(|(tag, value)| (*tag, to_written(value)));
                self.updates.push(values.collect());
            }
            Request::GroupFetch { tag, .. } => head.tag = small(*tag),
            Request::LastCommitted { .. } | Request::At { .. } => {}
        }
        self.heads.push(head);
    }
}

fn small(tag: u32) -> u8 {
    u8::try_from(tag).expect("a tag is at most 63")
}

pub struct Maps {
    data: VersionedData<u32, Held>,
    groups: VersionedGroupData<u32, u8, Held>,
}

impl Default for Maps {
    fn default() -> Self {
        Self { data: mvhashmap::new_data(), groups: mvhashmap::new_group_data() }
    }
}

impl Maps {
    #[inline(always)]
    pub fn call_all(&self, calls: Calls, sink: &mut impl Sink) {
        const THERE: &str = "one for each request of its kind";
        let Self { data, groups } = self;
        let mut bases = calls.bases.into_iter();
        let mut written = calls.written.into_iter();
        let mut deltas = calls.deltas.into_iter();
        let mut group_bases = calls.group_bases.into_iter();
        let mut updates = calls.updates.into_iter();
        for Head { kind, tag, key, index, incarnation } in &calls.heads {
            let (index, incarnation) = (*index, *incarnation);
            match kind {
                Kind::LastCommitted => sink.group(groups.get_last_committed_group(key)),
                Kind::Base => {
                    sink.done(|| data.set_base_value(*key, bases.next().expect(THERE)));
                }
                Kind::Write => {
                    let value = written.next().expect(THERE);
                    sink.done(|| data.write(*key, index, incarnation, value));
                }
                Kind::Delta => {
                    sink.done(|| data.add_delta(*key, index, deltas.next().expect(THERE)));
                }
                Kind::Estimate => sink.done(|| data.mark_estimate(key, index)),
                Kind::Remove => sink.done(|| data.remove(key, index)),
                Kind::Fetch => sink.data(data.fetch_data(key, index)),
                Kind::Materialise => sink.materialised(data.materialize_delta(key, index)),
                Kind::GroupBase => {
                    let values = group_bases.next().expect(THERE);
                    sink.done(|| groups.set_raw_base_values(*key, values));
                }
                Kind::Exchange => {
                    let (value, layout) = written.next().expect(THERE);
                    sink.done(|| {
                        groups.update_tagged_base_value_with_layout(*key, *tag, value, layout);
                    });
                }
                Kind::GroupWrite => {
                    let values = updates.next().expect(THERE);
                    sink.outside(groups.write(*key, index, incarnation, values));
                }
                Kind::GroupEstimate => sink.done(|| groups.mark_estimate(key, index)),
                Kind::GroupRemove => sink.done(|| groups.remove(key, index)),
                Kind::GroupFetch => sink.tagged(groups.fetch_tagged_data(key, tag, index)),
                Kind::GroupSize => sink.size(groups.get_group_size(key, index)),
                Kind::Finalise => sink.group(groups.finalize_group(key, index)),
            }
        }
    }
}
