//! Planted faults: what a wrong library would do, put in behind a call's back. Each must be found.

use crate::common::lent::{BLANK, UNTOUCHED};
use crate::guarded::{Pair, Place};
use proved_mvhashmap::Refusal;

#[derive(Debug, Clone, Copy, PartialEq)]
pub enum Fault {
    /// Answered done, and nothing recorded.
    Forgotten,
    /// Refused by 14, whatever the call said; what it wrote stays.
    Exhausted,
    /// The last word of the answer is another.
    Answer,
    /// A word past the answer is written; past a refusal's none, the first.
    PastAnswer,
    /// A word in or around the data store is another.
    Data(Place),
    /// The same of the group store.
    Group(Place),
}

impl Fault {
    pub fn put(self, pair: &mut Pair, said: &mut Result<(), Refusal>, answer: &mut [u32; 460]) {
        let count = said.map_or(0, |()| 1 + (answer[0] & 0x0FFF_FFFF) as usize);
        match self {
            Fault::Forgotten => (),
            Fault::Exhausted => {
                *answer = BLANK;
                *said = Err(Refusal::UnitsExhausted);
            }
            Fault::Answer => answer[count - 1] ^= 1 << 31,
            Fault::PastAnswer => answer[count] = !UNTOUCHED,
            Fault::Data(place) => *pair.data.word(place) ^= 1,
            Fault::Group(place) => *pair.group.word(place) ^= 1,
        }
    }
}

/// A fault at the call that answers this request, on the first pair or the second.
#[derive(Debug)]
pub struct Plant {
    pub fault: Fault,
    pub request: Vec<u32>,
    pub second: bool,
}
