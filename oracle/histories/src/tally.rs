//! How often each answer kind and each refusal was met.

use request::{head_kind, response::NAMES};
use std::{collections::BTreeMap, fmt};

#[derive(Default)]
pub struct Tally {
    /// Answers by kind, then refusals by number.
    counts: BTreeMap<(bool, u32), u64>,
}

impl Tally {
    pub fn count(&mut self, lines: &[String]) {
        for line in lines {
            *self.counts.entry(outcome(line)).or_default() += 1;
        }
    }

    pub fn total(&self) -> u64 {
        self.counts.values().sum()
    }

    /// What was never met: answer names and refusals, those left out that no command line meets.
    pub fn missing(&self) -> Vec<String> {
        let kinds = (0..NAMES.len() as u32).map(|kind| (false, kind));
        let numbers = [2, 3, 4, 6, 7, 8, 9, 10, 11, 12, 13, 14].map(|number| (true, number));
        let missing = kinds.chain(numbers).filter(|outcome| !self.counts.contains_key(outcome));
        missing.map(name).collect()
    }
}

fn outcome(line: &str) -> (bool, u32) {
    match line.strip_prefix("no ") {
        Some(number) => (true, number.parse().unwrap_or(u32::MAX)),
        None => {
            let head = line.split(' ').next().unwrap_or_default();
            (false, u32::from_str_radix(head, 16).map_or(u32::MAX, head_kind))
        }
    }
}

fn name((refused, number): (bool, u32)) -> String {
    match (refused, NAMES.get(number as usize)) {
        (false, Some(name)) => (*name).to_string(),
        (false, None) => "no answer".to_string(),
        (true, _) => format!("no {number}"),
    }
}

impl fmt::Display for Tally {
    fn fmt(&self, f: &mut fmt::Formatter<'_>) -> fmt::Result {
        for (n, (outcome, count)) in self.counts.iter().enumerate() {
            let separator = if n == 0 { "" } else { "; " };
            write!(f, "{separator}{} {count}", name(*outcome))?;
        }
        Ok(())
    }
}
