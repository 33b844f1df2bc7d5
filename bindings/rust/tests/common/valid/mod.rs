//! Rule 5, judged apart from the library: a store's words are read into maps, and each entry is
//! held to 01's rules. The layouts are those of the comments at the top of
//! crates/store/specs/Held.antt, crates/versioned_data/specs/Layout.antt and
//! crates/group_slots/specs/Layout.antt.

pub mod data;
pub mod group;

use super::words::number_in;
pub use data::data_valid;
pub use group::group_valid;

type Value = [u32; 7];

/// Whether both stores keep to rule 5.
pub fn both_valid(data: &[u32], group: &[u32]) -> bool {
    data_valid(data) && group_valid(group)
}

fn flag(word: u32) -> Option<bool> {
    (word <= 1).then_some(word == 1)
}

fn is_exchanged(value: &Value) -> bool {
    value[0] & 1 << 29 != 0
}

fn is_deletion(value: &Value) -> bool {
    value[0] >> 30 == 2
}

/// 01, "Value, 7 words".
fn value_is_fine(value: &Value) -> bool {
    let length = value[0] & 0x1FFF_FFFF;
    let has_number = !is_deletion(value) && length == 16;
    value[0] >> 30 <= 2
        && length <= 1_048_576
        && (!is_deletion(value) || length == 0)
        && (is_exchanged(value) || value[1] == 0)
        && (has_number || value[3..] == [0; 4])
}

/// 01, "Delta, 17 words": H ≤ M, L ≤ M, −L ≤ u ≤ H, and no minus zero.
fn delta_is_fine(delta: &[u32; 17]) -> bool {
    let [limit, high, low, size] = [0, 4, 8, 12].map(|at| number_in(&delta[at..]));
    let within = match delta[16] {
        0 => size <= high,
        1 => size != 0 && size <= low,
        _ => false,
    };
    high <= limit && low <= limit && within
}
