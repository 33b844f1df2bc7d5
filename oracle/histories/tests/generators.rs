//! What the generators are for: every outcome is met, and each history comes once.

use driver::program::lines;
use histories::{generate, history::History, short, tally::Tally};
use request::{Kind, Request};
use std::collections::BTreeSet;

#[test]
fn random_histories_meet_every_outcome_and_every_kind() {
    let mut tally = Tally::default();
    let mut kinds = BTreeSet::new();
    let mut damaged = BTreeSet::new();
    for number in 0..100 {
        let (_, history) = generate::history(1, number);
        tally.count(&lines(&history.bytes()));
        for ticket in &history.tickets {
            let kind = Kind::of_head(ticket[0]);
            let met = if Request::decode(ticket).is_some() { &mut kinds } else { &mut damaged };
            met.insert(kind);
        }
    }
    assert!(tally.missing().is_empty(), "{:?}", tally.missing());
    assert_eq!((kinds.len(), damaged.len()), (16, 16));
}

#[test]
fn a_seed_and_a_number_are_one_history() {
    let bytes = |seed, number| generate::history(seed, number).1.bytes();
    assert_eq!(bytes(5, 6), bytes(5, 6));
    assert_ne!(bytes(5, 6), bytes(6, 6));
}

#[test]
fn bytes_are_cut_into_the_tickets_that_they_were_made_of() {
    for number in 0..100 {
        let (_, history) = generate::history(3, number);
        let cut = History::cut(&history.bytes());
        let whole = cut.tickets.len();
        assert_eq!(cut.tickets, history.tickets[..whole]);
        assert_eq!(cut.bytes(), history.bytes());
    }
}

#[test]
fn short_histories_come_once_each() {
    for alphabet in short::alphabets() {
        let all = (0..alphabet.histories()).map(|n| alphabet.history(n).bytes());
        let distinct: BTreeSet<Vec<u8>> = all.collect();
        assert_eq!(distinct.len(), 1 + 17 + 17 * 17 + 17 * 17 * 17);
        assert_eq!(distinct.len(), alphabet.histories());
    }
}
