//! What a generator draws from.

use request::Kind;

#[derive(Clone, Copy)]
pub struct Profile {
    pub name: &'static str,
    /// How many of a round's histories are of this profile.
    pub often: u64,
    /// Tickets of a history.
    pub length: usize,
    /// Kinds and how often each is drawn.
    pub kinds: &'static [(Kind, u32)],
    pub keys: &'static [u32],
    pub indexes: &'static [u32],
    pub incarnations: &'static [u32],
    pub lengths: &'static [u32],
    pub layouts: &'static [u32],
    /// For values.
    pub numbers: &'static [u128],
    /// For the parts of deltas, cut to their limits.
    pub steps: &'static [u128],
    pub limits: &'static [u128],
    /// Percent of numbers and steps that are any number of any width instead.
    pub wild: u32,
    pub tags: &'static [u8],
    /// Percent of updates that have every tag of `tags`.
    pub whole_sets: u32,
    /// Percent of values that are deletions where they may be.
    pub deletions: u32,
    /// Percent of tickets that are damaged.
    pub damaged: u32,
}
