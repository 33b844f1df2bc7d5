//! What two sides print for one history, and the first difference as text.

use crate::history::History;
use request::readable;
use std::fmt::Write;

/// More tickets than these before a difference are only counted.
const SHOWN: usize = 40;

pub struct Sides {
    pub expected: Vec<String>,
    pub program: Vec<String>,
}

impl Sides {
    pub fn first_difference(&self) -> Option<usize> {
        let longer = self.expected.len().max(self.program.len());
        (0..longer).find(|&n| self.expected.get(n) != self.program.get(n))
    }

    /// The tickets up to the one of number `last`, where the sides differ; `source` says whose
    /// the expected lines are.
    pub fn show(&self, history: &History, last: usize, source: &str) -> String {
        let mut text = String::new();
        let first = (last + 1).saturating_sub(SHOWN);
        let mut line = |line: String| writeln!(text, "{line}").expect("a string takes all");
        if first > 0 {
            line(format!("     {first} tickets with the same lines"));
        }
        for n in first..=last {
            line(format!("{:3}  {}", n + 1, history.describe(n)));
            if n < last {
                line(format!("     both:    {}", answer(&self.expected, n)));
            }
        }
        line(format!("     {:8} {}", format!("{source}:"), answer(&self.expected, last)));
        line(format!("     program: {}", answer(&self.program, last)));
        text
    }
}

fn answer(lines: &[String], n: usize) -> String {
    lines.get(n).map_or("nothing".to_string(), |line| readable::answer(line))
}
