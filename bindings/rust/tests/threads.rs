//! A map shared by threads.

use proved_mvhashmap::*;
use std::panic::{catch_unwind, AssertUnwindSafe};
use std::sync::atomic::{AtomicBool, Ordering};
use std::sync::{Arc, Barrier};
use std::thread;

const THREADS: u32 = 4;
const EACH: u32 = 200;

const _: () = {
    const fn shared<T: Send + Sync>() {}
    shared::<MVHashMap>();
    shared::<VersionedData<'static>>();
    shared::<VersionedGroupData<'static>>();
};

fn tag(n: u32) -> Tag {
    Tag::try_from(n as u8).unwrap()
}

fn value(index: TxnIndex) -> WriteOp {
    WriteOp::number(WriteOpKind::Creation, u128::from(index) << 64, index)
}

#[test]
fn every_write_of_every_thread_is_there() {
    let map = Arc::new(MVHashMap::with_units((THREADS * EACH) as usize, MAX_UNITS));
    let threads: Vec<_> = (0..THREADS)
        .map(|number| {
            let map = Arc::clone(&map);
            thread::spawn(move || write_own(&map, number))
        })
        .collect();
    for thread in threads {
        thread.join().unwrap();
    }
    for index in 0..THREADS * EACH {
        let written = ValueWithLayout::Exchanged(value(index), None);
        let found = map.data().fetch_data(1, index + 1);
        assert_eq!(found, Ok(MVDataOutput::Versioned(Ok((index, 1)), written)));
        let found = map.group_data().fetch_tagged_data(1, tag(index % 64), index + 1);
        assert_eq!(found, Ok((Ok((index, 0)), written)));
    }
    let full = map.data().write(2, 0, 0, value(0), None);
    assert_eq!(full, Err(Refusal::UnitsExhausted), "no write took a unit twice");
}

/// Writes at the indexes of one thread, which lie between those of the others.
fn write_own(map: &MVHashMap, number: u32) {
    for index in (0..EACH).map(|turn| turn * THREADS + number) {
        map.data().write(1, index, 0, WriteOp::deletion(0), None).unwrap();
        map.data().mark_estimate(1, index).unwrap();
        map.data().write(1, index, 1, value(index), None).unwrap();
        let outside =
            map.group_data().write(1, index, 0, [(tag(index % 64), (value(index), None))]);
        assert_eq!(outside, Ok(true));
        let own = map.data().fetch_data(1, index + 1);
        let written = ValueWithLayout::Exchanged(value(index), None);
        assert_eq!(own, Ok(MVDataOutput::Versioned(Ok((index, 1)), written)));
    }
}

/// A writer changes the length of eight members at once; a reader never sees a mixture.
#[test]
fn a_request_is_one_step() {
    let map = MVHashMap::with_units(0, 64);
    let group = map.group_data();
    group.set_raw_base_values(1, []).unwrap();
    let update = |length| {
        let value = WriteOp::bytes(WriteOpKind::Creation, length, 0);
        group.write(1, 0, length, (0..8).map(|n| (tag(n), (value, None)))).unwrap()
    };
    update(0);
    let (done, start) = (AtomicBool::new(false), Barrier::new(2));
    thread::scope(|scope| {
        scope.spawn(|| {
            start.wait();
            (1..=5000).for_each(|length| {
                update(length);
            });
            done.store(true, Ordering::Release);
        });
        scope.spawn(|| {
            start.wait();
            let mut last = 8;
            while !done.load(Ordering::Acquire) {
                let found = group.get_group_size(1, 1).unwrap();
                assert_eq!((found.members, found.size % 8), (8, 0), "a mixture");
                assert!(found.size >= last, "an older state");
                last = found.size;
            }
        });
    });
    let after = GroupSize { members: 8, size: 8 * 5001 };
    assert_eq!(group.get_group_size(1, 1), Ok(after));
}

/// A caller's own code runs before the lock is taken, so its panic writes nothing.
#[test]
fn a_panic_in_a_callers_iterator_leaves_the_map_in_use() {
    let map = MVHashMap::with_units(4, 4);
    let values = (0..2).map(|n| match n {
        0 => (tag(0), (value(0), None)),
        _ => panic!("the caller's iterator"),
    });
    let write = AssertUnwindSafe(|| map.group_data().write(1, 0, 0, values));
    assert!(catch_unwind(write).is_err());
    let found = map.group_data().fetch_tagged_data(1, tag(0), 1);
    assert_eq!(found, Err(MVGroupError::Uninitialized), "nothing was written");
    assert_eq!(map.group_data().write(1, 0, 0, [(tag(0), (value(0), None))]), Ok(true));
}
