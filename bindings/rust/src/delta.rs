//! Deltas: changes to a number that is not known yet.

use crate::words;

/// How many words a delta has.
pub(crate) const DELTA_WORDS: usize = 17;

/// A size with a sign. `Negative(0)` is refused by 3: zero is `Positive(0)`.
#[derive(Debug, Clone, Copy, PartialEq, Eq, Hash)]
pub enum SignedU128 {
    /// The size is added.
    Positive(u128),
    /// The size is taken away.
    Negative(u128),
}

/// A change to a number that is not known yet, and how far it went on the way. It is plain data:
/// one that breaks a rule is refused by 3, [`Refusal::BadField`](crate::Refusal::BadField).
#[derive(Debug, Clone, Copy, PartialEq, Eq, Hash)]
pub struct DeltaOp {
    /// The limit: no number above it is ever reached.
    pub max_value: u128,
    /// How far above the start it went; at most the limit.
    pub max_achieved_positive_delta: u128,
    /// How far below the start it went, a depth; at most the limit.
    pub min_achieved_negative_delta: u128,
    /// The change in the end, within the two before.
    pub update: SignedU128,
}

impl DeltaOp {
    /// A number added.
    pub fn addition(value: u128, max_value: u128) -> Self {
        DeltaOp {
            max_value,
            max_achieved_positive_delta: value,
            min_achieved_negative_delta: 0,
            update: SignedU128::Positive(value),
        }
    }

    /// A number taken away. Nothing taken away is nothing added, since there is no minus zero.
    pub fn subtraction(value: u128, max_value: u128) -> Self {
        if value == 0 {
            return Self::addition(0, max_value);
        }
        DeltaOp {
            max_value,
            max_achieved_positive_delta: 0,
            min_achieved_negative_delta: value,
            update: SignedU128::Negative(value),
        }
    }

    pub(crate) fn words(&self) -> [u32; DELTA_WORDS] {
        let (size, sign) = match self.update {
            SignedU128::Positive(size) => (size, 0),
            SignedU128::Negative(size) => (size, 1),
        };
        let numbers = [
            self.max_value,
            self.max_achieved_positive_delta,
            self.min_achieved_negative_delta,
            size,
        ];
        let mut words = [sign; DELTA_WORDS];
        for (place, number) in words.chunks_exact_mut(4).zip(numbers) {
            place.copy_from_slice(&words::of_number(number));
        }
        words
    }

    pub(crate) fn of_words(words: &[u32]) -> Self {
        let size = words::number(&words[12..]);
        DeltaOp {
            max_value: words::number(words),
            max_achieved_positive_delta: words::number(&words[4..]),
            min_achieved_negative_delta: words::number(&words[8..]),
            update: match words[16] {
                0 => SignedU128::Positive(size),
                _ => SignedU128::Negative(size),
            },
        }
    }
}
