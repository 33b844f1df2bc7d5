//! Values and deltas at random, by few rules, so that requests meet each other's.

use super::random::Random;
use super::words::{minus, plus, value, Value};

pub fn some_value(random: &mut Random, exchanged: bool) -> Value {
    // A first base is accepted only if it creates.
    let kind = if exchanged { random.below(3) } else { random.pick(&[0, 0, 0, 0, 0, 0, 1, 2]) };
    let head = kind << 30 | u32::from(exchanged) << 29;
    match (head >> 30, random.below(4)) {
        (2, _) => value(head, 0, random.word(), 0),
        (_, 0) => value(head | random.below(9), 0, random.word(), 0),
        (_, 1) if exchanged => value(head | 16, random.below(3), random.word(), random.number()),
        _ => value(head | 16, 0, random.word(), u128::from(random.below(100))),
    }
}

pub fn some_delta(random: &mut Random) -> Vec<u32> {
    let limit = random.pick(&[100, 100, 150]);
    let size = u128::from(random.below(40));
    if random.chance(2) {
        plus(size, limit)
    } else {
        // "minus zero is bad"
        minus(1 + size, limit)
    }
}
