//! What requests and answers have in common: their heads, and 128-bit numbers in words.

/// Bits 28 to 31 of a head are the kind, the others the count of words after it.
const KIND_SHIFT: u32 = 28;

/// The head of a request or an answer.
pub(crate) const fn head(kind: u32, count: u32) -> u32 {
    kind << KIND_SHIFT | count
}

/// The kind of a head and its count.
pub(crate) fn opened(head: u32) -> (u32, usize) {
    (head >> KIND_SHIFT, (head & ((1 << KIND_SHIFT) - 1)) as usize)
}

/// A number's words, low word first.
pub(crate) fn of_number(number: u128) -> [u32; 4] {
    [number as u32, (number >> 32) as u32, (number >> 64) as u32, (number >> 96) as u32]
}

/// The number of the first four words.
pub(crate) fn number(words: &[u32]) -> u128 {
    words[..4].iter().rev().fold(0, |number, &word| number << 32 | u128::from(word))
}
