//! Orders in which places are filled and emptied.

use crate::common::random::Random;

#[derive(Debug, Clone, Copy)]
pub enum Order {
    Rising,
    Falling,
    Shuffled,
    /// First, last, second, last but one, ..
    Ends,
    /// Every second, and then those between, from the back.
    Halves,
    /// The middle, and then its neighbours on both sides in turn.
    Middle,
}

impl Order {
    pub const ALL: [Order; 6] =
        [Order::Rising, Order::Falling, Order::Shuffled, Order::Ends, Order::Halves, Order::Middle];

    /// The items in this order.
    pub fn of<T: Copy>(self, items: &[T], random: &mut Random) -> Vec<T> {
        let count = items.len();
        let places: Vec<usize> = match self {
            Order::Rising => (0..count).collect(),
            Order::Falling => (0..count).rev().collect(),
            Order::Shuffled => shuffled(count, random),
            Order::Ends => ends(count),
            Order::Halves => {
                let odd = (0..count).filter(|place| place % 2 == 1);
                (0..count).step_by(2).chain(odd.rev()).collect()
            }
            Order::Middle => ends(count).into_iter().rev().collect(),
        };
        places.into_iter().map(|place| items[place]).collect()
    }
}

fn ends(count: usize) -> Vec<usize> {
    (0..count).map(|n| if n % 2 == 0 { n / 2 } else { count - 1 - n / 2 }).collect()
}

fn shuffled(count: usize, random: &mut Random) -> Vec<usize> {
    let mut places: Vec<usize> = (0..count).collect();
    for last in (1..count).rev() {
        places.swap(last, random.below(last as u32 + 1) as usize);
    }
    places
}
