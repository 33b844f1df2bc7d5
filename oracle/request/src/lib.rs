//! The words of 01: tickets (`Request`), answers (`Response`), values and deltas, to and from
//! words and to text. Nothing here says what is right; a request holds whatever its words say.

pub mod delta;
pub mod kind;
mod make;
pub mod readable;
mod reader;
mod request;
pub mod response;
pub mod value;

pub use delta::Delta;
pub use kind::Kind;
pub use request::Request;
pub use response::Response;
pub use value::{Tagged, Value};

/// Both kinds of head: bits 28-31 kind, bits 0-27 count of words after it.
pub fn head(kind: u32, count: usize) -> u32 {
    kind << 28 | u32::try_from(count).expect("a count is below 2^28")
}

pub fn head_kind(head: u32) -> u32 {
    head >> 28
}

pub fn head_count(head: u32) -> usize {
    (head & 0x0FFF_FFFF) as usize
}

/// A number in words, low word first.
pub fn number_words(number: u128) -> [u32; 4] {
    std::array::from_fn(|n| (number >> (32 * n)) as u32)
}

/// A line of the history program: capitals, single spaces.
pub fn line(words: &[u32]) -> String {
    let digits: Vec<String> = words.iter().map(|word| format!("{word:08X}")).collect();
    digits.join(" ")
}
