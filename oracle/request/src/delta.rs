//! 01, "Delta": four numbers and a sign.

use crate::number_words;

#[derive(Clone, Copy, Debug, PartialEq, Eq)]
pub struct Delta {
    /// M of 01.
    pub limit: u128,
    /// H of 01.
    pub highest: u128,
    /// L of 01.
    pub lowest: u128,
    /// The size of u.
    pub update: u128,
    /// 0 plus, 1 minus; the word as it stands.
    pub sign: u32,
}

impl Delta {
    pub fn plus(update: u128, limit: u128, highest: u128, lowest: u128) -> Delta {
        Delta { limit, highest, lowest, update, sign: 0 }
    }

    pub fn minus(update: u128, limit: u128, highest: u128, lowest: u128) -> Delta {
        Delta { sign: 1, ..Delta::plus(update, limit, highest, lowest) }
    }

    pub fn words(&self) -> Vec<u32> {
        let numbers = [self.limit, self.highest, self.lowest, self.update];
        let mut words: Vec<u32> = numbers.into_iter().flat_map(number_words).collect();
        words.push(self.sign);
        words
    }
}
