//! One history on both sides: where they first differ, shrunk, as text.

use crate::{history::History, program::Program, shrink, sides::Sides};
use driver::program::lines;

/// The oracle's lines if the program prints the same, else a report.
pub fn same_lines(program: &Program, history: &History) -> Result<Vec<String>, String> {
    let sides = run(program, history);
    match sides.first_difference() {
        None => Ok(sides.expected),
        Some(at) => Err(report(program, history, at)),
    }
}

fn run(program: &Program, history: &History) -> Sides {
    let bytes = history.bytes();
    Sides { expected: lines(&bytes), program: program.lines(&bytes) }
}

fn report(program: &Program, history: &History, at: usize) -> String {
    let small = shrunk(program, history, at);
    let sides = run(program, &small);
    let Some(last) = sides.first_difference() else {
        return "a difference that another run does not show".to_string();
    };
    let tickets = history.tickets.len();
    let shown = sides.show(&small, last, "oracle");
    format!("first difference at ticket {} of {tickets}, shrunk to {}:\n{shown}", at + 1, last + 1)
}

fn shrunk(program: &Program, history: &History, at: usize) -> History {
    let (mut tickets, mut tail) = (history.tickets.clone(), history.tail.clone());
    if at < tickets.len() {
        tickets.truncate(at + 1);
        tail.clear();
    }
    let with = |tickets: &[Vec<u32>]| History { tickets: tickets.to_vec(), tail: tail.clone() };
    let differs = |tickets: &[Vec<u32>]| run(program, &with(tickets)).first_difference().is_some();
    with(&shrink::least(&tickets, |ticket| shrink::plainer(ticket), differs))
}
