//! Stores of many sizes are filled, emptied and filled again, in orders meant to fragment them.
//! Every answer and refusal is held to a model that knows nothing of the layout, the words around
//! the stores stay, a refusal changes no word, and an emptied store is all zero.

#[path = "../common/mod.rs"]
mod common;
mod data;
mod driver;
mod group;
mod guarded;
mod model;
mod orders;
mod plant;
mod planted;
mod round;

use driver::Met;
use orders::Order;
use round::{Plan, Round};

/// Words past the last whole unit: none, few, and one too few for another unit.
const MORE_WORDS: [usize; 4] = [0, 1, 31, 17];

/// A round of a size. The number sets its orders, its keys' widths and its seed.
fn plan(units: usize, number: usize) -> Plan {
    let at = |n: usize| Order::ALL[n % Order::ALL.len()];
    Plan {
        units,
        more_words: [number, number + 1].map(|n| MORE_WORDS[(units + n) % MORE_WORDS.len()]),
        width: [units, 1, 3, 16][(units % 5 + number) % 4],
        fill: at(number),
        empty: at(number / Order::ALL.len() + units + 1),
        seed: (units * 1000 + number) as u64,
    }
}

fn run_all(plans: impl Iterator<Item = Plan>) -> Met {
    let mut met = Met::new();
    for plan in plans {
        for (case, count) in Round::new(plan).run() {
            *met.entry(case).or_default() += count;
        }
    }
    met
}

/// Kinds of requests, the kinds of answers that the rounds are to meet, and the refusals.
const OUTCOMES: [(u32, &[u32], &[u32]); 11] = [
    (0, &[9], &[]),
    (2, &[0], &[7, 14]),
    (3, &[0], &[14]),
    (4, &[0], &[6]),
    (5, &[0], &[6]),
    (6, &[1, 2, 3, 4, 6, 7], &[9, 10]),
    (10, &[0, 10], &[14]),
    (11, &[0], &[6]),
    (12, &[0], &[]),
    (13, &[1, 4, 6], &[]),
    (15, &[9], &[6, 11, 14]),
];

/// Rounds that leave one out would show nothing of it.
fn has_met_all(met: &Met) {
    for (kind, answers, refusals) in OUTCOMES {
        let answers = answers.iter().map(|&answer| Ok(answer));
        for outcome in answers.chain(refusals.iter().map(|&number| Err(number))) {
            let count = met.get(&(kind, outcome)).copied().unwrap_or(0);
            assert!(count >= 10, "{count} of kind {kind}, {outcome:?}");
        }
    }
}

#[test]
fn stores_of_every_small_size() {
    let met = run_all((0..=70).flat_map(|units| (0..6).map(move |number| plan(units, number))));
    has_met_all(&met);
}

#[test]
fn large_stores() {
    let sizes = [128, 511, 512, 1000, 2048, 4095, 4096, 4097, 4100];
    has_met_all(&run_all(sizes.into_iter().enumerate().map(|(n, units)| plan(units, n))));
}
