//! Many runs at once, as many as there are processors.

use std::{
    num::NonZero,
    sync::atomic::{AtomicBool, AtomicU64, Ordering::Relaxed},
    sync::Mutex,
    thread,
};

/// Does the jobs 0, 1, 2, .. for as long as `more` allows the next one; ends early with what the
/// first job found that found something, the lowest number of those that were running.
pub fn first<T: Send>(
    more: impl Fn(u64) -> bool + Sync,
    job: impl Fn(u64) -> Option<T> + Sync,
) -> Option<T> {
    let (next, stop) = (AtomicU64::new(0), AtomicBool::new(false));
    let found: Mutex<Option<(u64, T)>> = Mutex::new(None);
    let work = || {
        while !stop.load(Relaxed) {
            let number = next.fetch_add(1, Relaxed);
            if !more(number) {
                break;
            }
            let Some(result) = job(number) else { continue };
            stop.store(true, Relaxed);
            let mut found = found.lock().expect("no job panics with it");
            if found.as_ref().is_none_or(|(lowest, _)| number < *lowest) {
                *found = Some((number, result));
            }
        }
    };
    thread::scope(|scope| {
        for _ in 0..thread::available_parallelism().map_or(1, NonZero::get) {
            scope.spawn(work);
        }
    });
    let found = found.into_inner().expect("no job panics with it");
    found.map(|(_, result)| result)
}
