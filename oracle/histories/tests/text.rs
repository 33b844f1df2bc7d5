//! The oracle and tools/requests have one text for a ticket and one for an answer.

use driver::{program::refused, Oracle};
use histories::history::History;
use request::readable;
use std::{path::PathBuf, process::Command};

fn file(name: &str) -> PathBuf {
    PathBuf::from(env!("CARGO_MANIFEST_DIR")).join("../..").join(name)
}

/// What the tool makes of a file, line by line.
fn tool(command: &str, name: &str) -> Vec<String> {
    let run = Command::new(file("tools/requests")).arg(command).arg(file(name)).output();
    let text = String::from_utf8(run.expect("python3").stdout).expect("text");
    text.lines().map(String::from).collect()
}

#[test]
fn the_samples_tickets_and_answers() {
    let bytes = std::fs::read(file("crates/history/stdin")).expect("the sample");
    let history = History::cut(&bytes);
    let mut oracle = Oracle::new();
    let (tickets, answers): (Vec<String>, Vec<String>) = history
        .tickets
        .iter()
        .map(|words| {
            let answer = match oracle.turn(words) {
                Ok(response) => response.to_string(),
                Err(number) => format!("{}: ", refused(number)),
            };
            (readable::ticket(words), answer)
        })
        .unzip();
    assert!(tickets.len() > 6000);
    let shown = tool("show", "crates/history/stdin");
    for (n, ticket) in tickets.iter().enumerate() {
        assert_eq!(&shown[n], ticket);
    }
    let shown = tool("answers", "crates/history/stdout");
    for (n, answer) in answers.iter().enumerate() {
        let same = if answer.starts_with("no ") {
            shown[n].starts_with(answer)
        } else {
            shown[n] == *answer
        };
        assert!(same, "{} and {answer}", shown[n]);
    }
}
