//! Short names for expected lines and for the values that cases use.

use crate::Case;
use request::value::{CREATION, DELETION, MODIFICATION};
use request::{line, Delta, Request, Response, Value};

/// A case of well-formed tickets, each with its line.
pub fn case(name: &str, steps: impl IntoIterator<Item = (Request, String)>) -> Case {
    let steps = steps.into_iter();
    words_case(name, steps.map(|(request, line)| (request.words(), line)).collect())
}

/// A case of tickets of any words.
pub fn words_case(name: &str, steps: Vec<(Vec<u32>, String)>) -> Case {
    let (tickets, lines) = steps.into_iter().unzip();
    Case { name: name.to_string(), tickets, lines }
}

pub fn no(number: u32) -> String {
    format!("no {number}")
}

fn words(response: Response) -> String {
    line(&response.words())
}

pub fn done() -> String {
    words(Response::Done)
}

pub fn wrote_outside() -> String {
    words(Response::WroteOutside)
}

pub fn versioned(index: u32, incarnation: u32, value: Value) -> String {
    words(Response::Versioned { index, incarnation, value })
}

pub fn at_base(value: Value) -> String {
    words(Response::VersionedAtBase(value))
}

pub fn resolved(number: u128) -> String {
    words(Response::Resolved(number))
}

pub fn unresolved(delta: Delta) -> String {
    words(Response::Unresolved(delta))
}

pub fn uninitialized() -> String {
    words(Response::Uninitialized)
}

pub fn tag_not_found() -> String {
    words(Response::TagNotFound)
}

pub fn dependency(index: u32) -> String {
    words(Response::Dependency(index))
}

pub fn failure() -> String {
    words(Response::DeltaApplicationFailure)
}

pub fn size(members: u32, sum: u32) -> String {
    words(Response::Size { members, sum })
}

pub fn committed(values: &[(u8, Value)]) -> String {
    words(Response::Committed(values.to_vec()))
}

/// An exchanged creation of 16 bytes that hold this number.
pub fn number(number: u128) -> Value {
    Value::exchanged(CREATION, 16).number(number)
}

pub fn creation(length: u32) -> Value {
    Value::exchanged(CREATION, length)
}

pub fn modification(length: u32) -> Value {
    Value::exchanged(MODIFICATION, length)
}

pub fn deletion() -> Value {
    Value::exchanged(DELETION, 0)
}

pub fn raw_creation(length: u32) -> Value {
    Value::raw(CREATION, length)
}

pub fn raw_modification(length: u32) -> Value {
    Value::raw(MODIFICATION, length)
}

pub fn raw_deletion() -> Value {
    Value::raw(DELETION, 0)
}

/// A delta of plus `update` that reached no further.
pub fn plus(update: u128, limit: u128) -> Delta {
    Delta::plus(update, limit, update, 0)
}

/// A delta of minus `update` that reached no further.
pub fn minus(update: u128, limit: u128) -> Delta {
    Delta::minus(update, limit, 0, update)
}
