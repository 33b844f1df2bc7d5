//! What a contestant must do: start from the scenario's state, answer its list, be timed on it.

use crate::scenario::Scenario;
use request::Request;
use std::time::Duration;

pub trait Contestant {
    fn name(&self) -> &'static str;

    /// Takes the scenario; what can be done once for all rounds is done here.
    fn take(&mut self, scenario: &Scenario);

    /// The answer's words for each of these requests, from the scenario's state. A refusal is a
    /// panic: the lists hold none, since the old product would panic.
    fn answers(&mut self, requests: &[Request]) -> Vec<Vec<u32>>;

    /// Restores the scenario's state, then times the whole list. The checksum is of what was
    /// answered, so that no call can be left out.
    fn round(&mut self) -> (Duration, u64);

    /// Takes part in every so many rounds.
    fn every(&self) -> usize {
        1
    }
}
