//! The old product as a contestant. This source is compiled twice, over the stand-ins and over
//! the real dashmap and crossbeam, by the packages old_stand_ins and old_real.

mod call;
#[path = "../../oracle/driver/src/convert.rs"]
#[allow(dead_code)]
mod convert;
mod sink;

use call::{Calls, Maps};
use measure::{clock, contestant::Contestant, scenario::Scenario};
use request::Request;
use sink::{Checksum, Words};
use std::time::Duration;

pub struct Old {
    name: &'static str,
    setup: Vec<Request>,
    timed: Vec<Request>,
}

impl Old {
    pub fn new(name: &'static str) -> Self {
        Self { name, setup: vec![], timed: vec![] }
    }

    /// The maps cannot be copied, so each round makes them anew.
    fn start(&self) -> Maps {
        let maps = Maps::default();
        maps.call_all(Calls::of(&self.setup), &mut Checksum::default());
        maps
    }
}

impl Contestant for Old {
    fn name(&self) -> &'static str {
        self.name
    }

    fn take(&mut self, scenario: &Scenario) {
        self.setup.clone_from(&scenario.setup);
        self.timed.clone_from(&scenario.timed);
    }

    fn answers(&mut self, requests: &[Request]) -> Vec<Vec<u32>> {
        let maps = self.start();
        let mut sink = Words::default();
        maps.call_all(Calls::of(requests), &mut sink);
        sink.0
    }

    /// The requests are decoded into the old types before the clock starts: its users have them.
    fn round(&mut self) -> (Duration, u64) {
        let maps = self.start();
        let calls = Calls::of(&self.timed);
        clock::timed(|| {
            let mut sink = Checksum::default();
            maps.call_all(calls, &mut sink);
            sink.0
        })
    }
}
