//! The collaborative scheduler of the Block-STM paper (arXiv 2203.06871, algorithms 4 and 5), with
//! its names. Workers ask it for tasks; nobody waits in it.

use crate::plant::Plant;
use proved_mvhashmap::{Incarnation, TxnIndex};
use std::sync::atomic::{AtomicBool, AtomicUsize, Ordering::SeqCst};
use std::sync::{Mutex, MutexGuard, PoisonError};

/// A transaction in one of its incarnations.
#[derive(Debug, Clone, Copy, PartialEq, Eq)]
pub struct Pass {
    pub txn_idx: TxnIndex,
    pub incarnation: Incarnation,
}

#[derive(Debug, Clone, Copy, PartialEq, Eq)]
pub enum Task {
    Execute(Pass),
    Validate(Pass),
}

/// Which task is looked for first. Every choice is right; the odd ones make more conflicts.
#[derive(Debug, Clone, Copy, PartialEq, Eq)]
pub enum Preference {
    Paper,
    ExecutionsFirst,
    HighestFirst,
}

#[derive(Debug, Clone, Copy, PartialEq, Eq)]
enum Status {
    ReadyToExecute,
    Executing,
    Executed,
    Aborting,
}

#[derive(Debug)]
pub struct Scheduler {
    size: usize,
    execution_idx: AtomicUsize,
    validation_idx: AtomicUsize,
    /// How often an index was lowered, so that `check_done` sees one that moves under it.
    decrease_count: AtomicUsize,
    active_tasks: AtomicUsize,
    done: AtomicBool,
    statuses: Vec<Mutex<(Incarnation, Status)>>,
    dependencies: Vec<Mutex<Vec<TxnIndex>>>,
    plant: Option<Plant>,
}

/// A lock whose holder panicked ends the program anyway.
pub fn locked<T>(mutex: &Mutex<T>) -> MutexGuard<'_, T> {
    mutex.lock().unwrap_or_else(PoisonError::into_inner)
}

impl Scheduler {
    pub fn new(size: usize, plant: Option<Plant>) -> Self {
        Scheduler {
            size,
            execution_idx: AtomicUsize::new(0),
            validation_idx: AtomicUsize::new(0),
            decrease_count: AtomicUsize::new(0),
            active_tasks: AtomicUsize::new(0),
            done: AtomicBool::new(false),
            statuses: (0..size).map(|_| Mutex::new((0, Status::ReadyToExecute))).collect(),
            dependencies: (0..size).map(|_| Mutex::new(Vec::new())).collect(),
            plant,
        }
    }

    pub fn done(&self) -> bool {
        self.done.load(SeqCst)
    }

    pub fn next_task(&self, preference: Preference) -> Option<Task> {
        let execution_idx = self.execution_idx.load(SeqCst);
        let to_validate = self.validation_idx.load(SeqCst) < execution_idx;
        let to_execute = execution_idx < self.size;
        match preference {
            Preference::HighestFirst => {
                if let Some(task) = self.highest_to_execute() {
                    return Some(task);
                }
            }
            Preference::ExecutionsFirst if to_execute => return self.next_to_execute(),
            _ => (),
        }
        if to_validate {
            self.next_to_validate()
        } else {
            self.next_to_execute()
        }
    }

    /// The paper goes up from the lowest; to run any transaction that is ready is as right, since
    /// `execution_idx` will find it taken.
    fn highest_to_execute(&self) -> Option<Task> {
        self.active_tasks.fetch_add(1, SeqCst);
        let found = (0..self.size).rev().find_map(|txn| self.try_incarnate(txn));
        if found.is_none() {
            self.active_tasks.fetch_sub(1, SeqCst);
        }
        found
    }

    fn next_to_execute(&self) -> Option<Task> {
        self.next_of(&self.execution_idx, |txn| self.try_incarnate(txn))
    }

    fn next_to_validate(&self) -> Option<Task> {
        self.next_of(&self.validation_idx, |txn| match *locked(self.statuses.get(txn)?) {
            (incarnation, Status::Executed) => Some(Task::Validate(pass(txn, incarnation))),
            _ => None,
        })
    }

    fn next_of(&self, counter: &AtomicUsize, task: impl Fn(usize) -> Option<Task>) -> Option<Task> {
        if counter.load(SeqCst) >= self.size {
            self.check_done();
            return None;
        }
        self.active_tasks.fetch_add(1, SeqCst);
        let found = task(counter.fetch_add(1, SeqCst));
        if found.is_none() {
            self.active_tasks.fetch_sub(1, SeqCst);
        }
        found
    }

    fn try_incarnate(&self, txn: usize) -> Option<Task> {
        let mut status = locked(self.statuses.get(txn)?);
        if status.1 != Status::ReadyToExecute {
            return None;
        }
        status.1 = Status::Executing;
        Some(Task::Execute(pass(txn, status.0)))
    }

    /// Suspends a transaction until another is executed again. False if that came first: then the
    /// read is tried again.
    pub fn add_dependency(&self, txn_idx: TxnIndex, blocking: TxnIndex) -> bool {
        // The lock is held to the end: `finish_execution` takes the list only after it is longer.
        let mut waiting = locked(&self.dependencies[blocking as usize]);
        if locked(&self.statuses[blocking as usize]).1 == Status::Executed {
            return false;
        }
        locked(&self.statuses[txn_idx as usize]).1 = Status::Aborting;
        waiting.push(txn_idx);
        drop(waiting);
        if self.plant != Some(Plant::LoseTask) {
            self.active_tasks.fetch_sub(1, SeqCst);
        }
        true
    }

    /// After an execution: its own validation if nothing above has to be looked at again.
    pub fn finish_execution(&self, done: Pass, wrote_new_path: bool) -> Option<Task> {
        let txn = done.txn_idx as usize;
        locked(&self.statuses[txn]).1 = Status::Executed;
        let waiting = std::mem::take(&mut *locked(&self.dependencies[txn]));
        if self.plant != Some(Plant::LoseWakeup) {
            self.resume(waiting);
        }
        if self.validation_idx.load(SeqCst) > txn {
            if !wrote_new_path {
                return Some(Task::Validate(done));
            }
            self.decrease(&self.validation_idx, txn);
        }
        self.active_tasks.fetch_sub(1, SeqCst);
        None
    }

    /// True for one of those who find that a pass is not valid.
    pub fn try_validation_abort(&self, failed: Pass) -> bool {
        let mut status = locked(&self.statuses[failed.txn_idx as usize]);
        let first = *status == (failed.incarnation, Status::Executed);
        if first {
            status.1 = Status::Aborting;
        }
        first
    }

    /// After a validation: the next incarnation if this one was aborted and is not taken yet.
    pub fn finish_validation(&self, txn_idx: TxnIndex, aborted: bool) -> Option<Task> {
        let txn = txn_idx as usize;
        if aborted {
            self.set_ready(txn);
            self.decrease(&self.validation_idx, txn + 1);
            if self.execution_idx.load(SeqCst) > txn {
                if let Some(task) = self.try_incarnate(txn) {
                    return Some(task);
                }
            }
        }
        self.active_tasks.fetch_sub(1, SeqCst);
        None
    }

    fn resume(&self, waiting: Vec<TxnIndex>) {
        for txn_idx in &waiting {
            self.set_ready(*txn_idx as usize);
        }
        if let Some(lowest) = waiting.into_iter().min() {
            self.decrease(&self.execution_idx, lowest as usize);
        }
    }

    fn set_ready(&self, txn: usize) {
        let mut status = locked(&self.statuses[txn]);
        *status = (status.0 + 1, Status::ReadyToExecute);
    }

    fn decrease(&self, counter: &AtomicUsize, target: usize) {
        counter.fetch_min(target, SeqCst);
        self.decrease_count.fetch_add(1, SeqCst);
    }

    fn check_done(&self) {
        let observed = self.decrease_count.load(SeqCst);
        let execution_idx = self.execution_idx.load(SeqCst);
        let validation_idx = self.validation_idx.load(SeqCst);
        if execution_idx.min(validation_idx) >= self.size
            && self.active_tasks.load(SeqCst) == 0
            && self.decrease_count.load(SeqCst) == observed
        {
            self.done.store(true, SeqCst);
        }
    }
}

fn pass(txn: usize, incarnation: Incarnation) -> Pass {
    Pass { txn_idx: txn as TxnIndex, incarnation }
}
