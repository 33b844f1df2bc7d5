//! What runs met. A run that meets no conflict tests nothing, so these decide too.

use proved_mvhashmap::Incarnation;
use std::fmt;

/// What is counted, in the order of the table below.
#[derive(Debug, Clone, Copy, PartialEq, Eq)]
pub enum Met {
    Block,
    Transaction,
    Step,
    Execution,
    ReExecution,
    Validation,
    FailedValidation,
    Abort,
    Dependency,
    DeltaFailure,
    WroteOutside,
    Removal,
    Base,
    Exchange,
    NotMaterializable,
}

const KINDS: usize = 15;

/// The names, and whether a run must have met it.
const NAMES: [(&str, bool); KINDS] = [
    ("blocks", true),
    ("transactions", true),
    ("steps", true),
    ("executions", true),
    ("re-executions", true),
    ("validations", true),
    ("failed validations", true),
    ("aborts", true),
    ("dependencies (estimates met)", true),
    ("delta failures read", true),
    ("group writes outside the earlier update", true),
    ("entries of an earlier pass removed", true),
    ("bases set", true),
    ("bases exchanged", true),
    ("deltas not materialised, as one by one (13)", false),
];

#[derive(Debug, Clone, Copy, Default)]
pub struct Counts {
    met: [u64; KINDS],
    highest_incarnation: Incarnation,
}

impl Counts {
    pub fn count(&mut self, what: Met) {
        self.count_if(what, true);
    }

    pub fn count_if(&mut self, what: Met, met: bool) {
        self.count_many(what, u64::from(met));
    }

    pub fn count_many(&mut self, what: Met, times: u64) {
        self.met[what as usize] += times;
    }

    pub fn count_incarnation(&mut self, incarnation: Incarnation) {
        self.highest_incarnation = self.highest_incarnation.max(incarnation);
    }

    pub fn add(&mut self, other: &Counts) {
        for (mine, others) in self.met.iter_mut().zip(other.met) {
            *mine += others;
        }
        self.count_incarnation(other.highest_incarnation);
    }

    fn of(&self, what: Met) -> u64 {
        self.met[what as usize]
    }
}

/// Blocks in threads and stepped blocks, counted apart: each way must meet conflicts.
#[derive(Debug, Clone, Default)]
pub struct Tally {
    pub threads: Counts,
    pub stepped: Counts,
}

impl Tally {
    pub fn sum(&self, what: Met) -> u64 {
        self.threads.of(what) + self.stepped.of(what)
    }

    /// What should have been met and was not, in either way that was run; both if none was.
    pub fn missing(&self) -> Vec<String> {
        let none = self.sum(Met::Block) == 0;
        let ways = [("in threads", &self.threads), ("stepped", &self.stepped)];
        let run = ways.into_iter().filter(|(_, counts)| none || counts.of(Met::Block) > 0);
        run.flat_map(|(way, counts)| {
            let rows = NAMES.iter().zip(counts.met);
            rows.filter(|((_, needed), count)| *needed && *count == 0)
                .map(move |((name, _), _)| format!("{name} {way}"))
        })
        .collect()
    }
}

impl fmt::Display for Tally {
    fn fmt(&self, f: &mut fmt::Formatter<'_>) -> fmt::Result {
        let mut row = |name: &str, threads: &dyn fmt::Display, stepped: &dyn fmt::Display| {
            writeln!(f, "{name:45} {threads:>12} {stepped:>12}")
        };
        row("", &"in threads", &"stepped")?;
        for (at, (name, _)) in NAMES.iter().enumerate() {
            row(name, &self.threads.met[at], &self.stepped.met[at])?;
        }
        let highest = |counts: &Counts| counts.highest_incarnation;
        row("highest incarnation", &highest(&self.threads), &highest(&self.stepped))
    }
}
