//! `differences`: every difference between the old product and 01, run on the bare Rust, with
//! nothing of 01 around its calls, and on the oracle, which has 01's rules around them.

use driver::{
    differences::{self, Difference},
    program::refused,
    Maps, Oracle,
};
use request::Request;
use std::collections::BTreeSet;

/// Where the Rust goes by the order of a hash map, so many fresh maps show every order.
const RUNS: usize = 200;

fn main() {
    for difference in differences::all() {
        print(&difference);
    }
}

fn print(difference: &Difference) {
    println!("## {}\n\n{}\n", difference.name, difference.why);
    println!("Decided by: {}\n", difference.decided);
    println!("| ticket | the Rust, bare | ours |\n|---|---|---|");
    let tickets = difference.history();
    let rows = bare(&tickets).into_iter().zip(ours(&tickets));
    for (n, (bare, ours)) in rows.enumerate() {
        let refused = bare.starts_with("fails") && ours.starts_with("no ");
        let mark = if bare == ours || refused { "" } else { "**" };
        let ticket = tickets[n].to_string();
        match n.checked_sub(difference.before.len()) {
            Some(_) => println!("| {ticket} | {mark}{bare}{mark} | {mark}{ours}{mark} |"),
            None if n == 0 => println!("| {} | {bare} | {ours} |", difference.caption),
            None => {}
        }
    }
    println!();
}

/// What the Rust did with each ticket; several outcomes where they vary from map to map.
fn bare(tickets: &[Request]) -> Vec<String> {
    let mut seen = vec![BTreeSet::new(); tickets.len()];
    for _ in 0..RUNS {
        let maps = Maps::default();
        for (ticket, seen) in tickets.iter().zip(&mut seen) {
            seen.insert(match maps.call(ticket) {
                Ok(response) => response.to_string(),
                Err(message) => format!("fails: {}", one_line(&message)),
            });
        }
    }
    let join = |outcomes: BTreeSet<String>| outcomes.into_iter().collect::<Vec<_>>().join(", or ");
    seen.into_iter().map(join).collect()
}

fn ours(tickets: &[Request]) -> Vec<String> {
    let mut oracle = Oracle::new();
    let turn = |ticket: &Request| match oracle.turn(&ticket.words()) {
        Ok(response) => response.to_string(),
        Err(number) => refused(number),
    };
    tickets.iter().map(turn).collect()
}

/// The first line of a message, fit for a table.
fn one_line(message: &str) -> String {
    message.lines().next().unwrap_or_default().replace('|', "\\|")
}
