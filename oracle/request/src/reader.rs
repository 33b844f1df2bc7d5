//! Takes fields off the front of words whose count was looked at before.

use crate::{delta::Delta, value::Tagged, value::Value};

pub struct Reader<'a> {
    words: std::slice::Iter<'a, u32>,
}

impl<'a> Reader<'a> {
    pub fn new(words: &'a [u32]) -> Self {
        Self { words: words.iter() }
    }

    pub fn word(&mut self) -> u32 {
        *self.words.next().expect("the count was looked at")
    }

    pub fn number(&mut self) -> u128 {
        (0..4).fold(0, |sum, n| sum | u128::from(self.word()) << (32 * n))
    }

    pub fn value(&mut self) -> Value {
        Value { head: self.word(), layout: self.word(), handle: self.word(), number: self.number() }
    }

    pub fn delta(&mut self) -> Delta {
        Delta {
            limit: self.number(),
            highest: self.number(),
            lowest: self.number(),
            update: self.number(),
            sign: self.word(),
        }
    }

    pub fn tagged(&mut self) -> Tagged {
        let set = u64::from(self.word()) | u64::from(self.word()) << 32;
        let tags = (0..64).filter(|tag| set >> tag & 1 == 1);
        tags.map(|tag| (tag, self.value())).collect()
    }
}
