//! What is measured: requests that make a state, and the list that is timed on it.

use request::{Kind, Request};
use std::collections::BTreeSet;

#[derive(Clone)]
pub struct Scenario {
    pub row: &'static str,
    /// Units of each store.
    pub units: usize,
    pub setup: Vec<Request>,
    pub timed: Vec<Request>,
    /// Requests that count as one operation: 2 where a pair is measured.
    pub requests_each: usize,
    /// So far into the list what is held is compared as well: a list that ends as it began shows
    /// nothing at its end.
    pub look_after: Option<usize>,
    /// The contestants that take part, by name; all of them where none is named.
    pub only: &'static [&'static str],
}

impl Scenario {
    /// All take part, each request counts, and what is held is compared at the end.
    pub fn of(row: &'static str, units: usize, setup: Vec<Request>, timed: Vec<Request>) -> Self {
        Self { row, units, setup, timed, requests_each: 1, look_after: None, only: &[] }
    }

    pub fn has(&self, contestant: &str) -> bool {
        self.only.is_empty() || self.only.contains(&contestant)
    }

    pub fn operations(&self) -> usize {
        self.timed.len() / self.requests_each
    }

    /// The list as it is compared: with probes at its end, and within it where it asks for them.
    pub fn compared(&self) -> Vec<Request> {
        let probes = self.probes();
        let (before, after) = self.timed.split_at(self.look_after.unwrap_or(0));
        let within = if self.look_after.is_some() { probes.as_slice() } else { &[] };
        [before, within, after, &probes].concat()
    }

    /// Reads of all that the list may have left, not timed: most edits answer just "done", so only
    /// the state shows whether they were done.
    fn probes(&self) -> Vec<Request> {
        let edits = self.setup.iter().chain(&self.timed);
        let words: BTreeSet<Vec<u32>> = edits.flat_map(probes_of).map(|r| r.words()).collect();
        words.iter().filter_map(|words| Request::decode(words)).collect()
    }

    /// The setup with its keys rising, for stores whose state does not depend on the order of
    /// arrival: nothing has to move then.
    pub fn sorted_setup(&self) -> Vec<Request> {
        let mut setup = self.setup.clone();
        setup.sort_by_key(|request| request.words()[1]);
        setup
    }
}

/// What an edit may have changed, just above its index.
fn probes_of(request: &Request) -> Vec<Request> {
    let words = request.words();
    let (kind, key) = (request.kind(), words[1]);
    let above = kind.index(&words).map_or(0, |index| index + 1);
    match kind {
        Kind::Fetch | Kind::GroupFetch | Kind::GroupSize | Kind::LastCommitted => vec![],
        Kind::Base
        | Kind::Write
        | Kind::Delta
        | Kind::Estimate
        | Kind::Remove
        | Kind::Materialise => vec![Request::fetch(key, above)],
        _ => {
            let tags = (0..64).map(|tag| Request::group_fetch(key, tag, above));
            tags.chain([Request::last_committed(key)]).collect()
        }
    }
}
