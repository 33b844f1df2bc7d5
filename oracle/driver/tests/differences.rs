//! The page of differences says what the Rust does now, not what it once did.

use driver::{differences, refusals::FAILURES, Maps};
use std::{fs, path::Path, process::Command};

/// The one section of the page for which there is nothing to run.
const NOTHING_TO_RUN: &str = "What rests on 01's text alone";

fn page() -> String {
    let page = Path::new(env!("CARGO_MANIFEST_DIR")).join("../../docs/DIFFERENCES.md");
    fs::read_to_string(page).expect("docs/DIFFERENCES.md")
}

/// Name and text of each section, what stands before the first left out.
fn sections(text: &str) -> Vec<(&str, &str)> {
    text.split("\n## ").skip(1).map(|section| section.split_once('\n').expect("a text")).collect()
}

#[test]
fn the_page_has_what_the_command_prints() {
    let run = Command::new(env!("CARGO_BIN_EXE_differences")).output();
    let printed = String::from_utf8(run.expect("it was built").stdout).expect("text");
    let page = page();
    for section in printed.split("\n## ") {
        assert!(page.contains(section.trim()), "not on the page:\n{section}");
    }
}

#[test]
fn the_page_has_no_section_that_is_not_run() {
    let listed: Vec<&str> = differences::all().iter().map(|difference| difference.name).collect();
    let page = page();
    let on_page: Vec<&str> = sections(&page).into_iter().map(|(name, _)| name).collect();
    assert_eq!(on_page, [listed.as_slice(), &[NOTHING_TO_RUN]].concat());
}

#[test]
fn every_section_says_what_decides_it() {
    let papers = ["the Block-STM paper, ", "AIP-9, ", "01 alone"];
    for (name, text) in sections(&page()) {
        let decided: Vec<&str> =
            text.lines().filter_map(|line| line.strip_prefix("Decided by: ")).collect();
        assert_eq!(decided.len(), 1, "{name}");
        assert!(papers.iter().any(|paper| decided[0].starts_with(paper)), "{name}");
    }
}

/// A plain panic leaves the maps as they were: no answer differs after it.
#[test]
fn after_a_plain_panic_both_go_on_alike() {
    let page = page();
    let plain: Vec<(&str, &str)> =
        sections(&page).into_iter().filter(|(name, _)| name.starts_with("Plain panic")).collect();
    assert!(!plain.is_empty());
    for (name, text) in plain {
        assert!(text.contains("| fails: ") && !text.contains("**"), "{name}");
    }
}

/// Each panic that the oracle makes a refusal of is met in some section.
#[test]
fn every_panic_is_shown() {
    let mut shown = vec![];
    for difference in differences::all() {
        let maps = Maps::default();
        for ticket in difference.history() {
            shown.extend(maps.call(&ticket).err().map(|message| (ticket.kind(), message)));
        }
    }
    for (kind, part, number) in FAILURES {
        let met = shown.iter().any(|(of, message)| *of == kind && message.contains(part));
        assert!(met, "{number}, {kind:?}: {part}");
    }
}
