//! The old product with 01's rules around it, each where 01 lists a difference.

use crate::{checks, refusals, slots::Slots, Maps};
use request::{Kind, Request, Response};

/// "14: more units after the ticket than the store has."
const LACK_OF_SLOTS: u32 = 14;

#[derive(Default)]
pub struct Oracle {
    maps: Maps,
    slots: Slots,
    /// What the maps are rebuilt from.
    accepted: Vec<Request>,
}

impl Oracle {
    pub fn new() -> Self {
        Self::default()
    }

    /// The answer to a ticket of any words, or the number that refuses it.
    pub fn turn(&mut self, words: &[u32]) -> Result<Response, u32> {
        let request = checks::checked(words)?;
        match self.maps.call(&request) {
            Ok(response) => self.accept(request, response),
            Err(message) => {
                // Difference: a panic and a failed finalise leave the Rust's work half done; 01
                // has a refused ticket change nothing.
                self.rebuild();
                in_spite_of(&request, &message)
                    .ok_or_else(|| refusals::number(request.kind(), &message))
            }
        }
    }

    fn accept(&mut self, request: Request, response: Response) -> Result<Response, u32> {
        if !self.slots.place(&request, self.committed_after(&request)) {
            self.rebuild();
            return Err(LACK_OF_SLOTS);
        }
        let response = match response {
            Response::Dependency(_) => self.first_estimate(&request).unwrap_or(response),
            response => response,
        };
        if !request.kind().is_read() {
            self.accepted.push(request);
        }
        Ok(response)
    }

    /// How many tags are committed, where the request may have changed that.
    fn committed_after(&self, request: &Request) -> usize {
        let key = match request {
            Request::GroupBase { key, .. } => key,
            Request::At { kind: Kind::Finalise, key, .. } => key,
            _ => return 0,
        };
        match self.maps.call(&Request::LastCommitted { key: *key }) {
            Ok(Response::Committed(values)) => values.len(),
            other => panic!("the group was just there: {other:?}"),
        }
    }

    /// Difference: of several estimates the Rust takes the first in the order of a hash map; 01
    /// has the size read take "tags in rising order".
    fn first_estimate(&self, request: &Request) -> Option<Response> {
        let Request::At { kind: Kind::GroupSize, key, index } = *request else {
            return None;
        };
        (0..64)
            .map(|tag| Request::GroupFetch { key, tag, index })
            .filter_map(|fetch| self.maps.call(&fetch).ok())
            .find(|response| matches!(response, Response::Dependency(_)))
    }

    fn rebuild(&mut self) {
        self.maps = Maps::default();
        for request in &self.accepted {
            if let Err(message) = self.maps.call(request) {
                panic!("accepted before, not now: {request}: {message}");
            }
        }
    }
}

/// Difference: the Rust panics on an absent key and not on an empty one. "An absent key and an
/// empty key answer alike: group removal is done, `get_last_committed_group` is the empty set."
fn in_spite_of(request: &Request, message: &str) -> Option<Response> {
    if !message.contains("Path must exist") {
        return None;
    }
    match request {
        Request::LastCommitted { .. } => Some(Response::Committed(vec![])),
        Request::At { kind: Kind::GroupRemove, .. } => Some(Response::Done),
        _ => None,
    }
}
