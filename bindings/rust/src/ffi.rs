//! The proved library's two calls, and the only unsafe code of this crate.
//!
//! Aliasing: each area comes from a Rust reference, the three that are written from `&mut`, so no
//! two of them overlap. Validity: `mvhashmap_call` takes any words; `mvhashmap_inner_call` asks for
//! valid stores, which is what a `Stores` is.

use crate::MAX_UNITS;

/// 32-bit words of a unit, the room for one entry.
pub(crate) const UNIT_WORDS: usize = 32;

/// Each area is a pointer and its length in words: request, data store, group store, answer.
type Call = unsafe extern "C" fn(
    *const u32,
    usize,
    *mut u32,
    usize,
    *mut u32,
    usize,
    *mut u32,
    usize,
) -> u32;

// As in crates/mvhashmap_c/mvhashmap.h.
extern "C" {
    fn mvhashmap_call(
        request: *const u32,
        request_words: usize,
        data: *mut u32,
        data_words: usize,
        group: *mut u32,
        group_words: usize,
        answer: *mut u32,
        answer_words: usize,
    ) -> u32;

    fn mvhashmap_inner_call(
        request: *const u32,
        request_words: usize,
        data: *mut u32,
        data_words: usize,
        group: *mut u32,
        group_words: usize,
        answer: *mut u32,
        answer_words: usize,
    ) -> u32;
}

/// Lends four areas, which do not overlap since Rust's references do not, to one of the calls.
///
/// # Safety
///
/// What the call asks of the words of `data` and `group` holds of them.
unsafe fn lend(
    call: Call,
    request: &[u32],
    data: &mut [u32],
    group: &mut [u32],
    answer: &mut [u32],
) -> u32 {
    call(
        request.as_ptr(),
        request.len(),
        data.as_mut_ptr(),
        data.len(),
        group.as_mut_ptr(),
        group.len(),
        answer.as_mut_ptr(),
        answer.len(),
    )
}

/// The open call: any words, and 0 or the number of a refusal.
pub(crate) fn call(
    request: &[u32],
    data: &mut [u32],
    group: &mut [u32],
    answer: &mut [u32],
) -> u32 {
    // SAFETY: the open call takes any words.
    unsafe { lend(mvhashmap_call, request, data, group, answer) }
}

/// A data store and a group store that are valid: they start cleared, nothing but a call writes
/// them, and a call keeps them valid (crates/mvhashmap/proofs/StoresSound.antt). The fields are private
/// to this file, so that no safe code can put other words there.
pub(crate) struct Stores {
    data: Box<[u32]>,
    group: Box<[u32]>,
}

impl Stores {
    pub(crate) fn cleared(data_units: usize, group_units: usize) -> Self {
        Stores { data: cleared(data_units), group: cleared(group_units) }
    }

    pub(crate) fn data_units(&self) -> usize {
        self.data.len() / UNIT_WORDS
    }

    pub(crate) fn group_units(&self) -> usize {
        self.group.len() / UNIT_WORDS
    }

    /// The inner call: as the open one, without its look at every word of both stores.
    pub(crate) fn call(&mut self, request: &[u32], answer: &mut [u32]) -> u32 {
        // SAFETY: these stores are valid.
        unsafe { lend(mvhashmap_inner_call, request, &mut self.data, &mut self.group, answer) }
    }
}

fn cleared(units: usize) -> Box<[u32]> {
    assert!(units <= MAX_UNITS, "a store has at most {MAX_UNITS} units, not {units}");
    vec![0; units * UNIT_WORDS].into_boxed_slice()
}
