//! The comparisons find a planted fault, shrink it and print it readably; without one they are
//! content.

use histories::{
    compare::{self, Until},
    pairs,
    program::Program,
};
use std::{fs, path::Path};

/// The example `planted` under a name, which is its fault, in a folder of the test's own.
fn planted(test: &str, fault: &str) -> Program {
    let built = Path::new(env!("CARGO_BIN_EXE_histories")).with_file_name("examples/planted");
    let folder = Path::new(env!("CARGO_TARGET_TMPDIR")).join(test);
    fs::create_dir_all(&folder).expect("a folder for tests");
    let path = folder.join(fault);
    if path.exists() {
        fs::remove_file(&path).expect("an earlier run's");
    }
    fs::hard_link(built, &path).expect("the example is built before the tests");
    Program::new(path.to_str().expect("a plain path")).expect("it was just put there")
}

fn until(count: u64) -> Until {
    Until { count, seconds: 60 }
}

/// The report's tickets and lines, without their words.
fn has(report: &str, parts: &[&str]) {
    for part in parts {
        assert!(report.contains(part), "{part:?} is not in:\n{report}");
    }
}

#[test]
fn no_fault_no_difference() {
    let program = planted("no_fault", "none");
    compare::cases(&program).expect("01's cases");
    compare::random_ones(&program, 2, &until(3000)).expect("random histories");
    pairs::compare(&program, 2, &until(50)).expect("pairs");
}

#[test]
fn cases_show_a_fault() {
    let report = compare::cases(&planted("cases", "late")).expect_err("a fault is planted");
    has(&report, &["fetch key", "01:", "program:"]);
}

#[test]
fn short_histories_show_a_fault() {
    let report = compare::short_ones(&planted("short", "late")).expect_err("a fault is planted");
    has(&report, &["shrunk to 2", "fetch key=0 index=0", "oracle:  40000000  (Uninitialized)"]);
}

#[test]
fn random_histories_show_a_fault_shrunk() {
    let report = compare::random_ones(&planted("random", "marks"), 1, &until(100_000));
    let report = report.expect_err("a fault is planted");
    has(&report, &["shrunk to 3", "estimate key", "(Dependency)", "program: 60000001"]);
    let report = compare::random_ones(&planted("random", "halts"), 1, &until(100_000));
    let report = report.expect_err("a fault is planted");
    has(&report, &["shrunk to 1", "finalise key", "program: ended with exit status: 3"]);
}

#[test]
fn pairs_show_a_reader_that_sees_too_much() {
    let report =
        pairs::compare(&planted("pairs", "late"), 1, &until(2000)).expect_err("a fault is planted");
    has(&report, &["left history:", "right history:", "dropped ", "kept    fetch key"]);
}

#[test]
fn pairs_show_a_program_that_ends_badly() {
    let report = pairs::compare(&planted("ends", "halts"), 1, &until(2000));
    has(&report.expect_err("a fault is planted"), &["finalise key", "ended with exit status: 3"]);
}
