//! Values: what a transaction writes, and what a read finds.

use crate::words;
use crate::{Handle, Layout};

/// How many words a value has.
pub(crate) const VALUE_WORDS: usize = 7;

const KIND_SHIFT: u32 = 30;
const EXCHANGED: u32 = 1 << 29;
const LENGTH: u32 = EXCHANGED - 1;

/// The length of a number's bytes: a value of another length has no number.
const NUMBER_LENGTH: u32 = 16;

/// What a write does to what was there.
#[repr(u32)]
#[derive(Debug, Clone, Copy, PartialEq, Eq, Hash)]
pub enum WriteOpKind {
    /// It makes something new.
    Creation = 0,
    /// It changes what was there.
    Modification = 1,
    /// It takes away what was there.
    Deletion = 2,
}

/// What a transaction writes. The store keeps the length of its bytes, the number where it is one,
/// and a handle for the bytes themselves, which stay with the caller.
///
/// It is plain data: one that breaks a rule, as a number where the length is not 16, is refused
/// by 3, [`Refusal::BadField`](crate::Refusal::BadField).
#[derive(Debug, Clone, Copy, PartialEq, Eq, Hash)]
pub struct WriteOp {
    /// What it does.
    pub kind: WriteOpKind,
    /// The length of its bytes, at most 1,048,576; 0 for a deletion, which has no bytes.
    pub length: u32,
    /// The number that 16 bytes are; 0 for any other length.
    pub number: u128,
    /// The caller's own name for the bytes.
    pub handle: Handle,
}

impl WriteOp {
    /// Bytes of some length, whose number, if they are 16, is 0.
    pub fn bytes(kind: WriteOpKind, length: u32, handle: Handle) -> Self {
        WriteOp { kind, length, number: 0, handle }
    }

    /// A number, which has 16 bytes.
    pub fn number(kind: WriteOpKind, number: u128, handle: Handle) -> Self {
        WriteOp { kind, length: NUMBER_LENGTH, number, handle }
    }

    /// A deletion.
    pub fn deletion(handle: Handle) -> Self {
        WriteOp::bytes(WriteOpKind::Deletion, 0, handle)
    }

    /// The length of its bytes; none for a deletion.
    pub fn bytes_len(&self) -> Option<u32> {
        (self.kind != WriteOpKind::Deletion).then_some(self.length)
    }
}

/// A value and whether its delayed fields were exchanged, and with which layout.
#[derive(Debug, Clone, Copy, PartialEq, Eq, Hash)]
pub enum ValueWithLayout {
    /// As it was read from storage, not yet exchanged.
    RawFromStorage(WriteOp),
    /// Exchanged, with a layout if it has delayed fields.
    Exchanged(WriteOp, Option<Layout>),
}

impl ValueWithLayout {
    /// The value without its layout.
    pub fn write_op(&self) -> &WriteOp {
        match self {
            ValueWithLayout::RawFromStorage(value) | ValueWithLayout::Exchanged(value, _) => value,
        }
    }

    /// The layout, if it was exchanged with one.
    pub fn layout(&self) -> Option<Layout> {
        match self {
            ValueWithLayout::RawFromStorage(_) => None,
            ValueWithLayout::Exchanged(_, layout) => *layout,
        }
    }

    /// What the write does.
    pub fn write_op_kind(&self) -> WriteOpKind {
        self.write_op().kind
    }

    /// The length of its bytes; none for a deletion.
    pub fn bytes_len(&self) -> Option<u32> {
        self.write_op().bytes_len()
    }

    pub(crate) fn words(&self) -> [u32; VALUE_WORDS] {
        let value = self.write_op();
        let mark = match self {
            ValueWithLayout::RawFromStorage(_) => 0,
            ValueWithLayout::Exchanged(..) => EXCHANGED,
        };
        // A length that has no place in the head becomes one that is refused too.
        let head = (value.kind as u32) << KIND_SHIFT | mark | value.length.min(LENGTH);
        let layout = self.layout().map_or(0, Layout::get);
        let [a, b, c, d] = words::of_number(value.number);
        [head, layout, value.handle, a, b, c, d]
    }

    pub(crate) fn of_words(words: &[u32]) -> Self {
        let head = words[0];
        let kind = match head >> KIND_SHIFT {
            0 => WriteOpKind::Creation,
            1 => WriteOpKind::Modification,
            _ => WriteOpKind::Deletion,
        };
        let number = words::number(&words[3..]);
        let value = WriteOp { kind, length: head & LENGTH, number, handle: words[2] };
        match head & EXCHANGED {
            0 => ValueWithLayout::RawFromStorage(value),
            _ => ValueWithLayout::Exchanged(value, Layout::new(words[1])),
        }
    }
}
