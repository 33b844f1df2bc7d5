//! 01's units, counted from the accepted requests: the old product knows no bound.

use request::{Kind, Request};
use std::collections::HashMap;

/// A store of 16,384 words has 512 units.
pub const SLOTS: usize = 16_384 / 32;

/// A place holds slots of its own: a data entry or a group update at a shifted index, or all
/// that is committed of a group.
type Place = (Store, u32, Held);

#[derive(Clone, Copy, PartialEq, Eq, Hash)]
enum Store {
    Data,
    Groups,
}

#[derive(Clone, Copy, PartialEq, Eq, Hash)]
enum Held {
    /// Shifted index; the base is 0.
    At(u64),
    Committed,
}

#[derive(Default)]
pub struct Slots {
    at: HashMap<Place, usize>,
    data: usize,
    groups: usize,
}

impl Slots {
    /// Counts what the stores hold after the request; `committed` is how many tags of its key
    /// are committed then. False if a store has too few slots: then nothing is counted.
    pub fn place(&mut self, request: &Request, committed: usize) -> bool {
        let changes = self.changes(request, committed);
        let Some(((store, ..), _)) = changes.first() else {
            return true;
        };
        let total = match store {
            Store::Data => &mut self.data,
            Store::Groups => &mut self.groups,
        };
        let old: usize = changes.iter().filter_map(|(place, _)| self.at.get(place)).sum();
        let new: usize = changes.iter().map(|(_, slots)| slots).sum();
        let after = *total + new - old;
        if after > SLOTS {
            return false;
        }
        *total = after;
        self.at.extend(changes);
        true
    }

    /// "A data entry takes 1; a group update 1 plus 1 a tag; a committed tag 1."
    fn changes(&self, request: &Request, committed: usize) -> Vec<(Place, usize)> {
        let shifted = |index: &u32| Held::At(u64::from(*index) + 1);
        let kept = |key: &u32| ((Store::Groups, *key, Held::Committed), committed);
        match request {
            Request::Base { key, .. } => vec![((Store::Data, *key, Held::At(0)), 1)],
            Request::Write { key, index, .. } | Request::Delta { key, index, .. } => {
                vec![((Store::Data, *key, shifted(index)), 1)]
            }
            Request::GroupBase { key, values } => {
                let base = (Store::Groups, *key, Held::At(0));
                // A later base changes nothing.
                let slots = self.at.get(&base).copied().unwrap_or(1 + values.len());
                vec![(base, slots), kept(key)]
            }
            Request::GroupWrite { key, index, values, .. } => {
                vec![((Store::Groups, *key, shifted(index)), 1 + values.len())]
            }
            Request::At { kind, key, index } => match kind {
                Kind::Remove => vec![((Store::Data, *key, shifted(index)), 0)],
                Kind::GroupRemove => vec![((Store::Groups, *key, shifted(index)), 0)],
                Kind::Finalise => vec![kept(key)],
                _ => vec![],
            },
            _ => vec![],
        }
    }
}
