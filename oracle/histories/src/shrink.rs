//! Fewer and plainer tickets that still show the same.

use request::Request;
use std::time::{Duration, Instant};

/// What takes a full store to show is not shrunk to the end.
const LONGEST: Duration = Duration::from_secs(15);

/// Takes items out, then makes those that are left plainer, as long as `shows` holds.
pub fn least<T: Clone>(
    items: &[T],
    plainer: impl Fn(&T) -> Vec<T>,
    mut shows: impl FnMut(&[T]) -> bool,
) -> Vec<T> {
    let start = Instant::now();
    let mut shows = |items: &[T]| start.elapsed() < LONGEST && shows(items);
    let mut items = fewer(items, &mut shows);
    for n in 0..items.len() {
        let mut with = items.clone();
        while let Some(item) = plainer(&items[n]).into_iter().find(|item| {
            with[n].clone_from(item);
            shows(&with)
        }) {
            items[n] = item;
        }
    }
    items
}

/// Takes out ever smaller runs.
fn fewer<T: Clone>(items: &[T], shows: &mut impl FnMut(&[T]) -> bool) -> Vec<T> {
    let mut items = items.to_vec();
    let mut run = items.len() / 2;
    while run > 0 {
        let mut at = 0;
        let mut took = false;
        while at < items.len() {
            let end = (at + run).min(items.len());
            let without = [&items[..at], &items[end..]].concat();
            if shows(&without) {
                items = without;
                took = true;
            } else {
                at = end;
            }
        }
        if run > 1 || !took {
            run /= 2;
        }
    }
    items
}

/// Tickets with one thing less: a tag of a set, or a word that is not 0.
pub fn plainer(ticket: &[u32]) -> Vec<Vec<u32>> {
    let mut plainer = match Request::decode(ticket) {
        Some(request) => fewer_tags(&request),
        None => Vec::new(),
    };
    for at in 1..ticket.len() {
        if ticket[at] != 0 {
            let mut words = ticket.to_vec();
            words[at] = 0;
            plainer.push(words);
        }
    }
    plainer
}

fn fewer_tags(request: &Request) -> Vec<Vec<u32>> {
    let (Request::GroupBase { values, .. } | Request::GroupWrite { values, .. }) = request else {
        return Vec::new();
    };
    let without = |at: usize| {
        let mut fewer = request.clone();
        if let Request::GroupBase { values, .. } | Request::GroupWrite { values, .. } = &mut fewer {
            values.remove(at);
        }
        fewer.words()
    };
    (0..values.len()).map(without).collect()
}
