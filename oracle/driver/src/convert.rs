//! Between 01's words and what the old product holds.

use aptos_aggregator::delta_change_set::{DeltaOp, Update};
use aptos_types::write_set::{TransactionWrite, WriteOpKind};
use bytes::Bytes;
use move_core_types::value::MoveTypeLayout;
use mvhashmap::types::ValueWithLayout;
use request::{
    value::{CREATION, DELETION, MODIFICATION},
    Delta, Value,
};
use std::sync::Arc;

/// A value without its layout, which the old product keeps beside it. Later words of a value
/// (02, N7) go here.
#[derive(Debug)]
pub struct Held {
    kind: WriteOpKind,
    bytes: Option<Bytes>,
    handle: u32,
    number: u128,
}

impl TransactionWrite for Held {
    fn bytes(&self) -> Option<&Bytes> {
        self.bytes.as_ref()
    }

    fn write_op_kind(&self) -> WriteOpKind {
        self.kind
    }

    fn as_u128(&self) -> anyhow::Result<Option<u128>> {
        match &self.bytes {
            None => Ok(None),
            Some(bytes) if bytes.len() == 16 => Ok(Some(self.number)),
            Some(bytes) => Err(anyhow::Error::msg(format!("{} bytes", bytes.len()))),
        }
    }
}

pub fn held(value: &Value) -> Held {
    let kind = match value.kind() {
        CREATION => WriteOpKind::Creation,
        MODIFICATION => WriteOpKind::Modification,
        _ => WriteOpKind::Deletion,
    };
    let has_bytes = kind != WriteOpKind::Deletion;
    Held {
        kind,
        bytes: has_bytes.then(|| Bytes::of_length(value.length() as usize)),
        handle: value.handle,
        number: value.number,
    }
}

pub fn layout(value: &Value) -> Option<Arc<MoveTypeLayout>> {
    (value.layout != 0).then(|| Arc::new(MoveTypeLayout(value.layout)))
}

pub fn with_layout(value: &Value) -> ValueWithLayout<Held> {
    if value.is_exchanged() {
        ValueWithLayout::Exchanged(Arc::new(held(value)), layout(value))
    } else {
        ValueWithLayout::RawFromStorage(Arc::new(held(value)))
    }
}

pub fn shown(value: &ValueWithLayout<Held>) -> Value {
    let (held, start, layout) = match value {
        ValueWithLayout::RawFromStorage(held) => (held, Value::raw as fn(u32, u32) -> Value, 0),
        ValueWithLayout::Exchanged(held, layout) => (
            held,
            Value::exchanged as fn(u32, u32) -> Value,
            layout.as_ref().map_or(0, |layout| layout.0),
        ),
    };
    let kind = match held.kind {
        WriteOpKind::Creation => CREATION,
        WriteOpKind::Modification => MODIFICATION,
        WriteOpKind::Deletion => DELETION,
    };
    let length = held.bytes.as_ref().map_or(0, Bytes::len) as u32;
    start(kind, length).layout(layout).handle(held.handle).number(held.number)
}

pub fn delta_op(delta: &Delta) -> DeltaOp {
    DeltaOp {
        limit: delta.limit,
        highest: delta.highest,
        lowest: delta.lowest,
        update: match delta.sign {
            0 => Update::Plus(delta.update),
            _ => Update::Minus(delta.update),
        },
    }
}

pub fn shown_delta(op: &DeltaOp) -> Delta {
    let make = match op.update {
        Update::Plus(_) => Delta::plus,
        Update::Minus(_) => Delta::minus,
    };
    let (Update::Plus(size) | Update::Minus(size)) = op.update;
    make(size, op.limit, op.highest, op.lowest)
}
