//! Every case of 01, answered by the old product behind the driver.

use driver::program::lines;
use std::{
    collections::BTreeSet,
    io::Write,
    process::{Command, Stdio},
};

#[test]
fn every_case_prints_its_lines() {
    for case in cases::all() {
        assert_eq!(lines(&case.bytes()), case.lines, "{}", case.name);
    }
}

/// 1 and 5 need an answer slice and stores that no command line can hand over.
#[test]
fn every_refusal_and_every_answer_is_met() {
    let lines: Vec<String> = cases::all().into_iter().flat_map(|case| case.lines).collect();
    let refusals: BTreeSet<&str> =
        lines.iter().filter_map(|line| line.strip_prefix("no ")).collect();
    for number in [2, 3, 4, 6, 7, 8, 9, 10, 11, 12, 13, 14] {
        assert!(refusals.contains(number.to_string().as_str()), "{number}");
    }
    for kind in "0123456789AB".chars() {
        let met = lines.iter().any(|line| line.len() >= 8 && line.starts_with(kind));
        assert!(met, "answer kind {kind}");
    }
}

/// The program itself, to the byte: every line ends, the last too.
#[test]
fn the_printed_session_to_the_byte() {
    let session = &cases::all()[0];
    let mut program = Command::new(env!("CARGO_BIN_EXE_oracle"));
    let mut child = program.stdin(Stdio::piped()).stdout(Stdio::piped()).spawn().expect("built");
    let mut stdin = child.stdin.take().expect("piped");
    stdin.write_all(&session.bytes()).expect("a pipe holds a session");
    drop(stdin);
    let output = child.wait_with_output().expect("it ends");
    let expected: String = session.lines.iter().map(|line| format!("{line}\n")).collect();
    assert_eq!(String::from_utf8(output.stdout).expect("text"), expected);
}

/// One to three bytes are a cut end as well, and no input prints nothing.
#[test]
fn bytes_that_make_no_word() {
    assert!(lines(&[]).is_empty());
    for left in 1..4 {
        assert_eq!(lines(&[0; 3][..left]), ["no 2"]);
    }
    assert_eq!(lines(&[2, 0, 0, 0x60, 7, 0, 0, 0, 0, 0, 0, 0, 1]), ["40000000", "no 2"]);
}
