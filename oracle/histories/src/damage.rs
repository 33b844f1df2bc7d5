//! Malformed tickets, made from good ones, and ends that stop the program.

use crate::rng::Rng;
use request::{head, head_count, head_kind, kind::LARGEST_COUNT};

const WORDS: [u32; 12] =
    [0, 1, 2, 16, 63, 64, 1_048_576, 1_048_577, 0x2000_0000, 0x8000_0000, u32::MAX - 1, u32::MAX];

/// The head still counts the words that are there, so that the next ticket is read whole.
pub fn ticket(rng: &mut Rng, mut words: Vec<u32>) -> Vec<u32> {
    match rng.below(24) {
        0 => words.push(rng.pick(&WORDS)),
        1 => {
            words.pop();
        }
        2 => words.truncate(rng.below(words.len()) + 1),
        3 => words[0] = rng.word(),
        4 => words = garbage(rng),
        n => {
            for _ in 0..n % 2 + 1 {
                one_word(rng, &mut words);
            }
        }
    }
    if words.is_empty() {
        words.push(rng.word());
    }
    words[0] = head(head_kind(words[0]), words.len() - 1);
    words
}

fn garbage(rng: &mut Rng) -> Vec<u32> {
    let length = rng.below(24) + 1;
    (0..length).map(|_| rng.word()).collect()
}

/// A bit turned over or a word of another size.
fn one_word(rng: &mut Rng, words: &mut [u32]) {
    let at = rng.below(words.len() - 1) + 1;
    words[at] = match rng.chance(50) {
        true => words[at] ^ 1 << rng.below(32),
        false => rng.pick(&WORDS),
    };
}

/// One to three bytes, a head that counts too many, or a ticket that is cut.
pub fn tail(rng: &mut Rng) -> Vec<u8> {
    match rng.below(3) {
        0 => (0..rng.below(3) + 1).map(|_| rng.word() as u8).collect(),
        1 => {
            let count = LARGEST_COUNT + 1 + rng.pick(&[0, 1, 500, 0x0FFF_FFFF - LARGEST_COUNT - 1]);
            let mut bytes = head(rng.word() >> 28, count).to_le_bytes().to_vec();
            bytes.resize(4 * rng.below(600) + 4, 0);
            bytes
        }
        _ => {
            let head = rng.word() & 0xF000_000F | 1;
            let mut bytes = head.to_le_bytes().to_vec();
            bytes.resize(4 + rng.below(4 * head_count(head)), 0);
            bytes
        }
    }
}
