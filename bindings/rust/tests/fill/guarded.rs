//! A store's words in a longer allocation, between words that no call may touch; and pairs of such
//! stores with the two calls on them.

use crate::common::lent::{answered, units_of, BLANK};
use crate::model::Said;
use crate::plant::Fault;
use proved_mvhashmap::{call, Refusal, UNIT_WORDS};

/// Guard words on each side: two units, so that a unit written one place off is seen.
const GUARD: usize = 2 * UNIT_WORDS;

/// The word that stands at a place which is no unit's: another at each, so that a shift is seen,
/// and never zero.
fn pattern(at: usize) -> u32 {
    0x9E37_79B9_u32.wrapping_mul(at as u32 + 1) | 1
}

#[derive(Clone, PartialEq)]
pub struct Guarded {
    words: Vec<u32>,
    lent: usize,
    /// What stood before the units and after them at first.
    frame: [Vec<u32>; 2],
}

impl Guarded {
    /// An empty store of so many words. Those past the last whole unit hold the pattern too.
    fn with_words(lent: usize) -> Self {
        let mut words: Vec<u32> = (0..GUARD + lent + GUARD).map(pattern).collect();
        let past = GUARD + units_of(lent) * UNIT_WORDS;
        let frame = [words[..GUARD].to_vec(), words[past..].to_vec()];
        words[GUARD..past].fill(0);
        Guarded { words, lent, frame }
    }

    /// Where the words past the last unit start.
    fn past(&self) -> usize {
        GUARD + units_of(self.lent) * UNIT_WORDS
    }

    fn lent(&mut self) -> &mut [u32] {
        &mut self.words[GUARD..][..self.lent]
    }

    /// Whether every word that is no unit's is as it was.
    fn is_intact(&self) -> bool {
        self.words[..GUARD] == self.frame[0] && self.words[self.past()..] == self.frame[1]
    }

    /// "all zero is empty"
    pub fn is_clear(&self) -> bool {
        self.words[GUARD..self.past()].iter().all(|&word| word == 0)
    }

    /// A planted fault's way in.
    pub fn word(&mut self, place: Place) -> &mut u32 {
        let at = match place {
            Place::Before => GUARD - 1,
            Place::After => GUARD + self.lent,
            Place::PastUnits => self.past(),
            Place::LastOfUnits => self.past() - 1,
            Place::Holding(word) => self.words.iter().position(|&w| w == word).expect("it is held"),
        };
        &mut self.words[at]
    }
}

#[derive(Debug, Clone, Copy, PartialEq)]
pub enum Place {
    Before,
    After,
    PastUnits,
    LastOfUnits,
    Holding(u32),
}

// As in crates/mvhashmap_c/mvhashmap.h, each pointer with its length. The crate lends the inner
// call stores of its own only, whose words nobody sees; here they are the test's.
#[rustfmt::skip]
extern "C" {
    fn mvhashmap_inner_call(
        request: *const u32, request_words: usize,
        data: *mut u32, data_words: usize,
        group: *mut u32, group_words: usize,
        answer: *mut u32, answer_words: usize,
    ) -> u32;
}

#[derive(Debug, Clone, Copy, PartialEq)]
pub enum By {
    Inner,
    Open,
}

#[derive(Clone, PartialEq)]
pub struct Pair {
    pub data: Guarded,
    pub group: Guarded,
}

impl Pair {
    pub fn with_words(data: usize, group: usize) -> Self {
        Pair { data: Guarded::with_words(data), group: Guarded::with_words(group) }
    }

    pub fn is_intact(&self) -> bool {
        self.data.is_intact() && self.group.is_intact()
    }

    /// What a call says, and its answer's words. A fault is put in behind the call's back.
    pub fn ask(
        &mut self,
        by: By,
        request: &[u32],
        fault: Option<Fault>,
        name: impl FnOnce() -> String,
    ) -> Said {
        let mut answer = BLANK;
        let mut said = match fault {
            Some(Fault::Forgotten) => {
                answer[0] = 0;
                Ok(())
            }
            _ => self.call(by, request, &mut answer),
        };
        if let Some(fault) = fault {
            fault.put(self, &mut said, &mut answer);
        }
        answered(said, &answer, name)
    }

    fn call(&mut self, by: By, request: &[u32], answer: &mut [u32]) -> Result<(), Refusal> {
        match by {
            By::Open => call(request, self.data.lent(), self.group.lent(), answer),
            By::Inner => self.inner_call(request, answer),
        }
    }

    fn inner_call(&mut self, request: &[u32], answer: &mut [u32]) -> Result<(), Refusal> {
        let (data, group) = (self.data.lent(), self.group.lent());
        // SAFETY: the areas are of four references, so they do not overlap. The stores were cleared
        // and only calls wrote them since: what a planted fault changes of their units leaves them
        // valid, or is found before another call.
        #[rustfmt::skip]
        let number = unsafe {
            mvhashmap_inner_call(
                request.as_ptr(), request.len(),
                data.as_mut_ptr(), data.len(),
                group.as_mut_ptr(), group.len(),
                answer.as_mut_ptr(), answer.len(),
            )
        };
        match number {
            0 => Ok(()),
            _ => Err(Refusal::from_number(number).expect("a number of the table")),
        }
    }
}
