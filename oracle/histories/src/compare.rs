//! The comparison command: 01's cases, the listed differences, every short history, random ones.

use crate::{
    comparison::same_lines, generate, history::History, program::Program, search, short,
    sides::Sides, tally::Tally,
};
use request::Request;
use std::{
    sync::Mutex,
    time::{Duration, Instant},
};

/// When to end; whichever comes first.
pub struct Until {
    /// Tickets or pairs.
    pub count: u64,
    pub seconds: u64,
}

/// What was compared, or the first difference.
pub type Outcome = Result<String, String>;

/// The program's lines against those that 01 gives in words; no oracle is asked.
pub fn cases(program: &Program) -> Outcome {
    let cases = cases::all();
    let found = search::first(
        |n| n < cases.len() as u64,
        |n| {
            let case = &cases[n as usize];
            let sides =
                Sides { expected: case.lines.clone(), program: program.lines(&case.bytes()) };
            let at = sides.first_difference()?;
            let history = History::of(case.tickets.clone());
            Some(format!("{}:\n{}", case.name, sides.show(&history, at, "01")))
        },
    );
    found.map_or(Ok(format!("{} cases of 01", cases.len())), Err)
}

/// The ticket lists of docs/DIFFERENCES.md, on which the bare Rust is not followed.
pub fn differences(program: &Program) -> Outcome {
    let listed = driver::differences::all();
    for difference in &listed {
        let tickets = difference.history().iter().map(Request::words).collect();
        same_lines(program, &History::of(tickets))
            .map_err(|report| format!("{}: {report}", difference.name))?;
    }
    Ok(format!("{} differences from the Rust", listed.len()))
}

/// Every history of up to three tickets over both alphabets.
pub fn short_ones(program: &Program) -> Outcome {
    let mut said = Vec::new();
    for alphabet in short::alphabets() {
        let found = search::first(
            |n| n < alphabet.histories() as u64,
            |n| same_lines(program, &alphabet.history(n as usize)).err(),
        );
        if let Some(report) = found {
            return Err(format!("short {} history: {report}", alphabet.name));
        }
        said.push(format!("{} short {}", alphabet.histories(), alphabet.name));
    }
    Ok(format!("all {} histories", said.join(" and ")))
}

pub fn random_ones(program: &Program, seed: u64, until: &Until) -> Outcome {
    let start = Instant::now();
    let tally = Mutex::new(Tally::default());
    let met = || tally.lock().expect("no count panics").total();
    let found = search::first(
        |_| met() < until.count && start.elapsed() < Duration::from_secs(until.seconds),
        |n| {
            let (profile, history) = generate::history(seed, n);
            match same_lines(program, &history) {
                Ok(lines) => {
                    tally.lock().expect("no count panics").count(&lines);
                    None
                }
                Err(report) => Some(format!("seed {seed}, history {n} ({profile}): {report}")),
            }
        },
    );
    match found {
        Some(report) => Err(report),
        None => {
            Ok(format!("{} random tickets, seed {seed}: {}", met(), tally.lock().expect("done")))
        }
    }
}
