//! Histories whose lines 01 gives in words. Every expected line here is written down from 01
//! and from the readings of it, none is taken from a run.

mod answers;
mod expect;
mod malformed;
mod readings_data;
mod readings_group;
mod refusals;
mod session;
mod slips;
mod units;
mod worked;

/// A history from empty stores and the lines that it prints.
pub struct Case {
    /// 01's words for it.
    pub name: String,
    /// The words of each ticket; their lengths and their heads' counts may disagree.
    pub tickets: Vec<Vec<u32>>,
    pub lines: Vec<String>,
}

/// Every case, by the part of 01 that it comes from.
pub fn all() -> Vec<Case> {
    [
        session::cases(),
        answers::cases(),
        worked::cases(),
        slips::cases(),
        refusals::cases(),
        malformed::cases(),
        units::cases(),
        readings_data::cases(),
        readings_group::cases(),
    ]
    .into_iter()
    .flatten()
    .collect()
}

impl Case {
    pub fn bytes(&self) -> Vec<u8> {
        let words = self.tickets.iter().flatten();
        words.flat_map(|word| word.to_le_bytes()).collect()
    }
}
