//! 01, "Value": a head, a layout, a handle and a number.

use crate::number_words;

/// Bits 30-31 of the head.
pub const CREATION: u32 = 0;
pub const MODIFICATION: u32 = 1;
pub const DELETION: u32 = 2;

const EXCHANGED: u32 = 1 << 29;

#[derive(Clone, Copy, Debug, PartialEq, Eq)]
pub struct Value {
    pub head: u32,
    /// 0 for none.
    pub layout: u32,
    /// Stands for the `Arc`.
    pub handle: u32,
    pub number: u128,
}

/// The values of a set, in rising tag order.
pub type Tagged = Vec<(u8, Value)>;

impl Value {
    pub const WORDS: usize = 7;

    pub fn raw(kind: u32, length: u32) -> Value {
        Value { head: kind << 30 | length, layout: 0, handle: 0, number: 0 }
    }

    pub fn exchanged(kind: u32, length: u32) -> Value {
        let raw = Value::raw(kind, length);
        Value { head: raw.head | EXCHANGED, ..raw }
    }

    pub fn layout(self, layout: u32) -> Value {
        Value { layout, ..self }
    }

    pub fn handle(self, handle: u32) -> Value {
        Value { handle, ..self }
    }

    pub fn number(self, number: u128) -> Value {
        Value { number, ..self }
    }

    pub fn kind(&self) -> u32 {
        self.head >> 30
    }

    pub fn is_exchanged(&self) -> bool {
        self.head & EXCHANGED != 0
    }

    pub fn length(&self) -> u32 {
        self.head & (EXCHANGED - 1)
    }

    pub fn words(&self) -> [u32; Value::WORDS] {
        let [a, b, c, d] = number_words(self.number);
        [self.head, self.layout, self.handle, a, b, c, d]
    }
}

/// A set's two words, bit n for tag n, and its values' words.
pub fn set_words(values: &[(u8, Value)]) -> Vec<u32> {
    let set = values.iter().fold(0, |set, (tag, _)| set | 1u64 << tag);
    let mut words = vec![set as u32, (set >> 32) as u32];
    words.extend(values.iter().flat_map(|(_, value)| value.words()));
    words
}
