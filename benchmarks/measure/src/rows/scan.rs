//! The open call's scan: fetches with both stores held, by the open call and by the inner one,
//! which does the same without the scan.

use super::{data, group};
use crate::scenario::Scenario;

pub const SCAN: &str = "scan";

/// Timed fetches of a round: few, since the open call is slow and the scan is the same for each.
const OPERATIONS: usize = 256;

pub fn scan(units: usize) -> Scenario {
    let mut fetches = data::fetch(units);
    fetches.timed.truncate(OPERATIONS);
    fetches.setup.extend(group::setup(units));
    Scenario { row: SCAN, only: &["inner", "open"], ..fetches }
}
