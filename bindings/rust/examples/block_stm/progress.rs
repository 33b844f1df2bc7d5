//! Where the run stands: one line rewritten on a terminal, else a line every few seconds.

use crate::counts::{Met, Tally};
use std::io::{stderr, IsTerminal, Write};
use std::time::{Duration, Instant};

#[derive(Debug)]
pub struct Progress {
    start: Instant,
    shown: Instant,
    terminal: bool,
    runs: Option<u64>,
    time: Option<Duration>,
}

impl Progress {
    pub fn new(runs: Option<u64>, time: Option<Duration>) -> Self {
        let now = Instant::now();
        Progress { start: now, shown: now, terminal: stderr().is_terminal(), runs, time }
    }

    pub fn out_of_time(&self) -> bool {
        self.time.is_some_and(|time| self.start.elapsed() >= time)
    }

    pub fn seconds(&self) -> f64 {
        self.start.elapsed().as_secs_f64()
    }

    pub fn show(&mut self, tally: &Tally) {
        let every = if self.terminal { Duration::from_millis(200) } else { Duration::from_secs(5) };
        if self.shown.elapsed() < every {
            return;
        }
        self.shown = Instant::now();
        let line = self.line(tally);
        if self.terminal {
            eprint!("\r\x1b[K{line}");
            // A terminal that cannot be written to is no reason to stop.
            let _ = stderr().flush();
        } else {
            eprintln!("{line}");
        }
    }

    pub fn clear(&self) {
        if self.terminal {
            eprint!("\r\x1b[K");
        }
    }

    fn line(&self, tally: &Tally) -> String {
        let blocks = tally.sum(Met::Block);
        let rate = blocks as f64 / self.seconds();
        let of = self.runs.map_or(String::new(), |runs| format!(" of {runs}"));
        let left = self.left(blocks, rate);
        let (aborts, dependencies) = (tally.sum(Met::Abort), tally.sum(Met::Dependency));
        format!(
            "{blocks}{of} blocks, {aborts} aborts, {dependencies} dependencies, \
             {rate:.0} blocks/s, {left:.0} s left"
        )
    }

    fn left(&self, done: u64, rate: f64) -> f64 {
        let by_time = self.time.map(|time| time.as_secs_f64() - self.seconds());
        let by_runs = self.runs.map(|runs| runs.saturating_sub(done) as f64 / rate);
        let left = by_time.unwrap_or(f64::INFINITY).min(by_runs.unwrap_or(f64::INFINITY));
        left.max(0.0)
    }
}
