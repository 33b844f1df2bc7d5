//! Requests in words, made from the README's table and not by the crate's own encoder.

pub const CREATION: u32 = 0;
pub const MODIFICATION: u32 = 1;
pub const DELETION: u32 = 2;

pub const PLUS: u32 = 0;
pub const MINUS: u32 = 1;

pub type Value = [u32; 7];

/// A head that counts the fields, and the fields.
pub fn request(kind: u32, fields: &[u32]) -> Vec<u32> {
    [&[kind << 28 | fields.len() as u32], fields].concat()
}

pub fn number(n: u128) -> [u32; 4] {
    [0, 32, 64, 96].map(|shift| (n >> shift) as u32)
}

/// The number that four words hold, low word first.
pub fn number_in(words: &[u32]) -> u128 {
    words[..4].iter().rev().fold(0, |n, &word| n << 32 | u128::from(word))
}

pub fn value(head: u32, layout: u32, handle: u32, n: u128) -> Value {
    let [a, b, c, d] = number(n);
    [head, layout, handle, a, b, c, d]
}

pub fn raw(kind: u32, length: u32) -> Value {
    value(kind << 30 | length, 0, 5, 0)
}

pub fn exchanged(kind: u32, length: u32) -> Value {
    value(kind << 30 | 1 << 29 | length, 0, 5, 0)
}

/// An exchanged creation of 16 bytes that are a number.
pub fn numbered(n: u128) -> Value {
    value(1 << 29 | 16, 0, 5, n)
}

pub fn delta(limit: u128, high: u128, low: u128, size: u128, sign: u32) -> Vec<u32> {
    [&[limit, high, low, size].map(number).concat()[..], &[sign]].concat()
}

pub fn plus(n: u128, limit: u128) -> Vec<u32> {
    delta(limit, n, 0, n, PLUS)
}

pub fn minus(n: u128, limit: u128) -> Vec<u32> {
    delta(limit, 0, n, n, MINUS)
}

/// A set's two words, and the values in rising order of tags.
pub fn members(tagged: &[(u32, Value)]) -> Vec<u32> {
    let mut sorted = tagged.to_vec();
    sorted.sort();
    let set = sorted.iter().fold(0u64, |set, (tag, _)| set | 1 << tag);
    let values: Vec<u32> = sorted.iter().flat_map(|(_, value)| *value).collect();
    [&[set as u32, (set >> 32) as u32], &values[..]].concat()
}

/// The tags of a set's two words, rising.
pub fn tags_in(set: &[u32]) -> impl Iterator<Item = u32> {
    let set = u64::from(set[1]) << 32 | u64::from(set[0]);
    (0..64).filter(move |tag| set >> tag & 1 == 1)
}

pub fn last_committed(key: u32) -> Vec<u32> {
    request(0, &[key])
}

pub fn base(key: u32, value: Value) -> Vec<u32> {
    request(1, &[&[key], &value[..]].concat())
}

pub fn write(key: u32, index: u32, incarnation: u32, value: Value) -> Vec<u32> {
    request(2, &[&[key, index, incarnation], &value[..]].concat())
}

pub fn add_delta(key: u32, index: u32, delta: &[u32]) -> Vec<u32> {
    request(3, &[&[key, index], delta].concat())
}

pub fn estimate(key: u32, index: u32) -> Vec<u32> {
    request(4, &[key, index])
}

pub fn remove(key: u32, index: u32) -> Vec<u32> {
    request(5, &[key, index])
}

pub fn fetch(key: u32, index: u32) -> Vec<u32> {
    request(6, &[key, index])
}

pub fn materialize(key: u32, index: u32) -> Vec<u32> {
    request(7, &[key, index])
}

pub fn group_base(key: u32, tagged: &[(u32, Value)]) -> Vec<u32> {
    request(8, &[&[key], &members(tagged)[..]].concat())
}

pub fn exchange(key: u32, tag: u32, value: Value) -> Vec<u32> {
    request(9, &[&[key, tag], &value[..]].concat())
}

pub fn group_write(key: u32, index: u32, incarnation: u32, tagged: &[(u32, Value)]) -> Vec<u32> {
    request(10, &[&[key, index, incarnation], &members(tagged)[..]].concat())
}

pub fn group_estimate(key: u32, index: u32) -> Vec<u32> {
    request(11, &[key, index])
}

pub fn group_remove(key: u32, index: u32) -> Vec<u32> {
    request(12, &[key, index])
}

pub fn group_fetch(key: u32, tag: u32, index: u32) -> Vec<u32> {
    request(13, &[key, tag, index])
}

pub fn group_size(key: u32, index: u32) -> Vec<u32> {
    request(14, &[key, index])
}

pub fn finalize(key: u32, index: u32) -> Vec<u32> {
    request(15, &[key, index])
}
