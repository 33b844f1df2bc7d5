//! A history: tickets whose heads count their words, and bytes at the end that may stop it.

use driver::program::next_ticket;
use request::readable;
use std::fmt::Write;

#[derive(Clone, Default)]
pub struct History {
    pub tickets: Vec<Vec<u32>>,
    /// Empty, or what makes the program print one more `no 2` and stop.
    pub tail: Vec<u8>,
}

impl History {
    pub fn of(tickets: Vec<Vec<u32>>) -> Self {
        Self { tickets, tail: Vec::new() }
    }

    /// The tickets in these bytes as the program takes them, and what stops it.
    pub fn cut(bytes: &[u8]) -> Self {
        let mut history = Self::default();
        let mut rest = bytes;
        while let Some((words, after)) = next_ticket(rest) {
            history.tickets.push(words);
            rest = after;
        }
        history.tail = rest.to_vec();
        history
    }

    pub fn bytes(&self) -> Vec<u8> {
        let words = self.tickets.iter().flatten();
        let mut bytes: Vec<u8> = words.flat_map(|word| word.to_le_bytes()).collect();
        bytes.extend(&self.tail);
        bytes
    }

    /// The ticket that the line of this number answers, as text and as words.
    pub fn describe(&self, at: usize) -> String {
        let mut text = String::new();
        match self.tickets.get(at) {
            Some(words) => {
                let (readable, line) = (readable::ticket(words), request::line(words));
                write!(text, "{readable}\n     {line}").expect("a string takes all");
            }
            None => write!(text, "bytes at the end: {:02X?}", self.tail).expect("as above"),
        }
        text
    }
}
