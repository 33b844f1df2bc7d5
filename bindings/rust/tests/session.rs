//! The session that the repository's README prints, through a map and through the open call.

mod common;

use common::lent::Lent;
use common::words::{estimate, fetch, group_remove, numbered, write};
use proved_mvhashmap::{MVHashMap, Refusal, ANSWER_WORDS};

const README: &str = include_str!("../../../README.md");

/// The lines of the block that follows the word "prints".
fn printed() -> Vec<&'static str> {
    let (_, after) = README.split_once("\nprints\n\n```\n").expect("the README prints a session");
    let (block, _) = after.split_once("\n```\n").expect("the block ends");
    block.lines().collect()
}

fn requests() -> [Vec<u32>; 5] {
    [
        fetch(7, 0),
        estimate(7, 0),
        write(7, 0, 0, numbered(100)),
        fetch(7, 1),
        group_remove(9, u32::MAX),
    ]
}

fn line(said: Result<Vec<u32>, Refusal>) -> String {
    match said {
        Ok(words) => {
            let digits: Vec<String> = words.iter().map(|word| format!("{word:08X}")).collect();
            digits.join(" ")
        }
        Err(refusal) => format!("no {}", refusal.number()),
    }
}

#[test]
fn through_a_map() {
    let map = MVHashMap::with_units(512, 512);
    let lines = requests().map(|request| {
        let mut answer = [0; ANSWER_WORDS];
        let said = map.request(&request, &mut answer);
        line(said.map(|()| answer[..=(answer[0] & 0x0FFF_FFFF) as usize].to_vec()))
    });
    assert_eq!(lines.as_slice(), printed());
}

#[test]
fn through_the_open_call() {
    let mut lent = Lent::with_words(16_384, 16_384);
    let lines = requests().map(|request| line(lent.call(&request)));
    assert_eq!(lines.as_slice(), printed());
}
