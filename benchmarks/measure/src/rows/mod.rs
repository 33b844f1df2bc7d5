//! The rows of the table: what is timed, from one generator with a fixed seed.

mod block;
mod data;
mod fill;
mod group;
mod scan;

pub use data::FETCH;
pub use scan::SCAN;

use crate::scenario::Scenario;
use histories::rng::Rng;
use request::{value::MODIFICATION, Value};

/// The rows, with stores of so many units. Those that do not fit in so few are left out.
pub fn all(units: usize) -> Vec<Scenario> {
    let mut rows = data::all(units);
    rows.extend(fill::all(units));
    rows.extend(group::all(units));
    rows.push(block::mixed(units));
    rows.push(scan::scan(units));
    rows
}

/// 15 of 16 units are held.
fn held(units: usize) -> usize {
    units / 16 * 15
}

/// Different keys, anywhere in the 32 bits, in no order.
fn spread_keys(rng: &mut Rng, count: usize) -> Vec<u32> {
    let mut keys = Vec::new();
    while keys.len() < count {
        let key = rng.word();
        if !keys.contains(&key) {
            keys.push(key);
        }
    }
    keys
}

/// Timed operations of a round, where one takes longer the more units there are.
fn fewer_operations(units: usize) -> usize {
    ((1 << 19) / units).clamp(128, 1024)
}

/// What transactions write: bytes without a number.
fn value(handle: u32) -> Value {
    Value::exchanged(MODIFICATION, 100).handle(handle)
}
