//! README.md says how much is compared by running, and says it right.

use histories::short;
use std::{fs, path::Path};

fn file(name: &str) -> String {
    let path = Path::new(env!("CARGO_MANIFEST_DIR")).join("../..").join(name);
    fs::read_to_string(&path).unwrap_or_else(|error| panic!("{}: {error}", path.display()))
}

/// With a comma before each three digits.
fn written(number: usize) -> String {
    match number {
        0..=999 => number.to_string(),
        _ => format!("{},{:03}", written(number / 1000), number % 1000),
    }
}

#[test]
fn the_numbers_of_what_is_compared() {
    let readme = file("README.md");
    let short: usize = short::alphabets().iter().map(short::Alphabet::histories).sum();
    let counted = [
        (cases::all().len(), "cases of 01"),
        (driver::differences::all().len(), "lists of requests in docs/DIFFERENCES.md"),
        (short, "histories of up to three requests"),
        (file("crates/history/stdout").lines().count(), "that is replayed"),
    ];
    for (number, of) in counted {
        let text = format!("{} {of}", written(number));
        assert!(readme.contains(&text), "README.md does not say: {text}");
    }
}
