//! Stand-in for `aptos_aggregator`. `delta_change_set` follows 01's text, since the bodies of
//! its two functions are in no file that was handed over; `types` has the names that are used.

pub mod delta_change_set;
pub mod types;
