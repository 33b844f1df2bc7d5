//! Stores and an answer slice of the test's own, lent to the open call.

use proved_mvhashmap::{call, Refusal, MAX_UNITS, UNIT_WORDS};

/// What stands in the answer slice before a call: no answer has this word in every place.
pub const UNTOUCHED: u32 = 0xA5A5_A5A5;

/// An answer slice before a call, with room past the longest answer.
pub const BLANK: [u32; 460] = [UNTOUCHED; 460];

/// The answer's words in a slice that was `BLANK` before the call. A refusal has none, and words
/// past an answer are untouched. The name is the request's, for a failure.
pub fn answered(
    said: Result<(), Refusal>,
    answer: &[u32; 460],
    name: impl FnOnce() -> String,
) -> Result<Vec<u32>, Refusal> {
    let words = said.map_or(0, |()| 1 + (answer[0] & 0x0FFF_FFFF) as usize);
    assert!(answer[words..] == BLANK[words..], "words past the answer, {said:?}: {}", name());
    said.map(|()| answer[..words].to_vec())
}

/// "A store of W words has W / 32 units, rounded down, at most 4,096."
pub fn units_of(words: usize) -> usize {
    (words / UNIT_WORDS).min(MAX_UNITS)
}

#[derive(Clone)]
pub struct Lent {
    pub data: Vec<u32>,
    pub group: Vec<u32>,
}

impl Lent {
    pub fn with_units(data_units: usize, group_units: usize) -> Self {
        Self::with_words(data_units * UNIT_WORDS, group_units * UNIT_WORDS)
    }

    pub fn with_words(data: usize, group: usize) -> Self {
        Lent { data: vec![0; data], group: vec![0; group] }
    }

    /// Stores after requests that are all accepted.
    pub fn after(mut self, requests: &[Vec<u32>]) -> Self {
        for request in requests {
            self.call(request).unwrap_or_else(|refusal| panic!("{refusal}: {request:X?}"));
        }
        self
    }

    /// The answer's words. A refusal has changed no word; an accepted call none past its answer,
    /// and none of the store that it does not work on.
    pub fn call(&mut self, request: &[u32]) -> Result<Vec<u32>, Refusal> {
        self.call_with_answer(request, 460)
    }

    pub fn call_with_answer(
        &mut self,
        request: &[u32],
        answer_words: usize,
    ) -> Result<Vec<u32>, Refusal> {
        let before = self.clone();
        let mut answer = vec![UNTOUCHED; answer_words];
        let result = call(request, &mut self.data, &mut self.group, &mut answer);
        if let Err(refusal) = result {
            assert!(self.data == before.data, "{refusal} changed the data store: {request:X?}");
            assert!(self.group == before.group, "{refusal} changed the group store: {request:X?}");
            assert!(answer.iter().all(|&word| word == UNTOUCHED), "{refusal} has an answer");
            return Err(refusal);
        }
        match request[0] >> 28 {
            1..=5 | 7 => assert!(self.group == before.group, "not its store: {request:X?}"),
            8..=12 | 15 => assert!(self.data == before.data, "not its store: {request:X?}"),
            _ => assert!(self.data == before.data && self.group == before.group, "a read wrote"),
        }
        let count = (answer[0] & 0x0FFF_FFFF) as usize;
        let past = answer.split_off(1 + count);
        assert!(past.iter().all(|&word| word == UNTOUCHED), "words past the answer: {request:X?}");
        Ok(answer)
    }
}
