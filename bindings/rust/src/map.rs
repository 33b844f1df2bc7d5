//! The map: two stores of its own, shared under one lock.

use crate::answer::Answer;
use crate::ffi::{self, Stores};
use crate::{Refusal, VersionedData, VersionedGroupData, ANSWER_WORDS};
use std::fmt;
use std::sync::{Mutex, MutexGuard, PoisonError};

/// A multi-version map: a data store and a group store, empty at first.
///
/// Threads share it by reference or in an `Arc`. One lock is around both stores, and each call
/// holds it once: a call is one step, and sees all steps before it.
///
/// A panic while the lock is held leaves no half change, since the proved call itself never panics;
/// so a poisoned lock is taken as any other.
pub struct MVHashMap {
    shared: Mutex<Shared>,
}

/// What the lock guards. The answer slice is kept here, so that no call has to clear one.
struct Shared {
    stores: Stores,
    answer: [u32; ANSWER_WORDS],
}

impl MVHashMap {
    /// An empty map whose stores have so many units. A data entry takes one unit, a group update
    /// one and one more a tag, a committed tag one; freed units serve again.
    ///
    /// # Panics
    ///
    /// If a store is to have more than [`MAX_UNITS`](crate::MAX_UNITS) units.
    pub fn with_units(data_units: usize, group_units: usize) -> Self {
        let stores = Stores::cleared(data_units, group_units);
        MVHashMap { shared: Mutex::new(Shared { stores, answer: [0; ANSWER_WORDS] }) }
    }

    /// The data store: values and deltas by key and transaction.
    pub fn data(&self) -> VersionedData<'_> {
        VersionedData::of(self)
    }

    /// The group store: values by key, tag and transaction, and the committed groups.
    pub fn group_data(&self) -> VersionedGroupData<'_> {
        VersionedGroupData::of(self)
    }

    /// A request in words, answered in words at the start of `answer`, which has at least
    /// [`ANSWER_WORDS`]. The repository's README has the format. A refusal leaves `answer` as it
    /// is.
    pub fn request(&self, request: &[u32], answer: &mut [u32]) -> Result<(), Refusal> {
        Refusal::of_result(self.lock().stores.call(request, answer))
    }

    /// As [`request`](Self::request), without taking the lock: nobody else has the map.
    pub fn request_mut(&mut self, request: &[u32], answer: &mut [u32]) -> Result<(), Refusal> {
        let shared = self.shared.get_mut().unwrap_or_else(PoisonError::into_inner);
        Refusal::of_result(shared.stores.call(request, answer))
    }

    /// A request in words, and what `read` makes of the answer, in one step.
    pub(crate) fn ask<T>(
        &self,
        request: &[u32],
        read: impl FnOnce(Answer<'_>) -> T,
    ) -> Result<T, Refusal> {
        let mut shared = self.lock();
        let Shared { stores, answer } = &mut *shared;
        Refusal::of_result(stores.call(request, answer))?;
        Ok(read(Answer::at_start_of(answer)))
    }

    fn lock(&self) -> MutexGuard<'_, Shared> {
        self.shared.lock().unwrap_or_else(PoisonError::into_inner)
    }
}

impl fmt::Debug for MVHashMap {
    fn fmt(&self, f: &mut fmt::Formatter<'_>) -> fmt::Result {
        let shared = self.lock();
        f.debug_struct("MVHashMap")
            .field("data_units", &shared.stores.data_units())
            .field("group_units", &shared.stores.group_units())
            .finish_non_exhaustive()
    }
}

/// The open call on lent stores: any words, and the stores are looked at whole at every call.
///
/// `data` and `group` are stores of the caller's own; cleared words are empty ones. A store of W
/// words has W / 32 units, at most [`MAX_UNITS`](crate::MAX_UNITS); words past them are not
/// touched. The answer's words are put at the start of `answer`, which has at least
/// [`ANSWER_WORDS`]. A refusal changes no word of the three.
pub fn call(
    request: &[u32],
    data: &mut [u32],
    group: &mut [u32],
    answer: &mut [u32],
) -> Result<(), Refusal> {
    Refusal::of_result(ffi::call(request, data, group, answer))
}
