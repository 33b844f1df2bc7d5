//! 01, "History program": words in, lines out.

use crate::Oracle;
use request::{head_count, kind::LARGEST_COUNT, line};

/// A line a ticket. "A head counting over 453 words, or a cut end, prints `no 2` and stops."
pub fn lines(input: &[u8]) -> Vec<String> {
    let mut oracle = Oracle::new();
    let mut lines = Vec::new();
    let mut rest = input;
    while !rest.is_empty() {
        let Some((words, after)) = next_ticket(rest) else {
            lines.push(refused(2));
            break;
        };
        lines.push(match oracle.turn(&words) {
            Ok(response) => line(&response.words()),
            Err(number) => refused(number),
        });
        rest = after;
    }
    lines
}

pub fn refused(number: u32) -> String {
    format!("no {number}")
}

/// The words that the head at the front counts, itself included, and what is after them.
pub fn next_ticket(bytes: &[u8]) -> Option<(Vec<u32>, &[u8])> {
    let head = u32::from_le_bytes(*bytes.first_chunk()?);
    let count = head_count(head);
    if count > LARGEST_COUNT {
        return None;
    }
    let (ticket, after) = bytes.split_at_checked(4 * (count + 1))?;
    let words = ticket.chunks_exact(4);
    let words = words.map(|word| u32::from_le_bytes(word.try_into().expect("four bytes")));
    Some((words.collect(), after))
}
