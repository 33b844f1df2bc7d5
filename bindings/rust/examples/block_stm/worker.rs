//! A worker: takes tasks and does them a step at a time, each step at most one request to the
//! store. Who steps when is decided outside, by threads or by the adversary.

use crate::block::Block;
use crate::counts::{Counts, Met};
use crate::failure::Failure;
use crate::plant::Plant;
use crate::program::{Location, Output, Program};
use crate::reader::{Descriptor, Progress, Reader};
use crate::recording::{self, Change, Place};
use crate::scheduler::{locked, Pass, Preference, Scheduler, Task};
use proved_mvhashmap::{Incarnation, MVHashMap, TxnIndex};
use std::sync::{Arc, Mutex};

/// What the workers of a block share.
#[derive(Debug)]
pub struct Shared<'a> {
    pub block: &'a Block,
    pub map: MVHashMap,
    pub scheduler: Scheduler,
    pub results: Vec<Mutex<Recorded>>,
    pub preference: Preference,
    pub plant: Option<Plant>,
}

/// What was read, and what was found there.
pub type Reads = Vec<(Location, Descriptor)>;

/// What a transaction's last whole pass read and wrote.
#[derive(Debug, Default)]
pub struct Recorded {
    pub incarnation: Incarnation,
    pub reads: Arc<Reads>,
    pub output: Output,
}

/// The kind of a worker's next step, for those who choose whose turn it is.
#[derive(Debug, Clone, Copy, PartialEq, Eq)]
pub enum Step {
    Ask,
    Read,
    Write,
    Validate,
    Abort,
}

#[derive(Debug)]
enum Work<'a> {
    Ask,
    Execute(Pass, Execution<'a>),
    Record(Pass, Recording),
    Validate(Pass, Validation),
    Abort(Pass, Vec<Place>),
}

#[derive(Debug)]
struct Execution<'a> {
    program: Program<'a>,
    reader: Reader,
    reads: Reads,
}

#[derive(Debug)]
struct Recording {
    reads: Reads,
    output: Output,
    /// What is still to be done, the next one last.
    changes: Vec<Change>,
    wrote_new_path: bool,
}

#[derive(Debug)]
struct Validation {
    reads: Arc<Reads>,
    at: usize,
    /// The read at hand, if it has begun.
    reader: Option<Reader>,
}

#[derive(Debug)]
pub struct Worker<'a> {
    shared: &'a Shared<'a>,
    work: Work<'a>,
    pub counts: Counts,
}

impl<'a> Worker<'a> {
    pub fn new(shared: &'a Shared<'a>) -> Self {
        Worker { shared, work: Work::Ask, counts: Counts::default() }
    }

    pub fn finished(&self) -> bool {
        matches!(self.work, Work::Ask) && self.shared.scheduler.done()
    }

    /// What it will do next, and for which transaction.
    pub fn next_step(&self) -> (Step, Option<TxnIndex>) {
        match &self.work {
            Work::Ask => (Step::Ask, None),
            Work::Execute(pass, _) => (Step::Read, Some(pass.txn_idx)),
            Work::Record(pass, _) => (Step::Write, Some(pass.txn_idx)),
            Work::Validate(pass, _) => (Step::Validate, Some(pass.txn_idx)),
            Work::Abort(pass, _) => (Step::Abort, Some(pass.txn_idx)),
        }
    }

    pub fn step(&mut self) -> Result<(), Failure> {
        self.counts.count(Met::Step);
        self.work = match std::mem::replace(&mut self.work, Work::Ask) {
            Work::Ask => self.take(self.shared.scheduler.next_task(self.shared.preference)),
            Work::Execute(pass, execution) => self.execute(pass, execution)?,
            Work::Record(pass, recording) => self.record(pass, recording)?,
            Work::Validate(pass, validation) => self.validate(pass, validation)?,
            Work::Abort(pass, places) => self.abort(pass, places)?,
        };
        Ok(())
    }

    fn take(&mut self, task: Option<Task>) -> Work<'a> {
        match task {
            None => Work::Ask,
            Some(Task::Execute(pass)) => {
                self.counts.count(Met::Execution);
                self.counts.count_if(Met::ReExecution, pass.incarnation > 0);
                self.counts.count_incarnation(pass.incarnation);
                let ops = &self.shared.block.transactions[pass.txn_idx as usize];
                let program = Program::start(pass.txn_idx, ops);
                self.go_on(pass, program, Vec::new())
            }
            Some(Task::Validate(pass)) => {
                self.counts.count(Met::Validation);
                let reads = locked(self.result(pass)).reads.clone();
                Work::Validate(pass, Validation { reads, at: 0, reader: None })
            }
        }
    }

    fn result(&self, pass: Pass) -> &'a Mutex<Recorded> {
        &self.shared.results[pass.txn_idx as usize]
    }

    fn planted(&self, plant: Plant) -> bool {
        self.shared.plant == Some(plant)
    }

    /// Runs the program on to its next read, or to its end.
    fn go_on(&self, pass: Pass, mut program: Program<'a>, reads: Reads) -> Work<'a> {
        if let Some(location) = program.next_read() {
            let reader = Reader::new(location, pass.txn_idx);
            return Work::Execute(pass, Execution { program, reader, reads });
        }
        let output = program.output();
        let mut changes = recording::changes(&locked(self.result(pass)).output, &output);
        if self.planted(Plant::ForgetRemoval) {
            changes.retain(|change| !matches!(change, Change::Remove(_)));
        }
        Work::Record(pass, Recording { reads, output, changes, wrote_new_path: false })
    }

    fn execute(&mut self, pass: Pass, mut execution: Execution<'a>) -> Result<Work<'a>, Failure> {
        let Shared { map, block, scheduler, .. } = self.shared;
        match execution.reader.step(map, &block.storage, &mut self.counts)? {
            Progress::Again => (),
            Progress::Blocked(blocking) => {
                if scheduler.add_dependency(pass.txn_idx, blocking) {
                    self.counts.count(Met::Dependency);
                    return Ok(Work::Ask);
                }
            }
            Progress::Found(descriptor, seen) => {
                let failed = descriptor == Descriptor::DeltaFailure;
                self.counts.count_if(Met::DeltaFailure, failed);
                let Execution { mut program, reader, mut reads } = execution;
                reads.push((reader.location, descriptor));
                program.answer(seen);
                return Ok(self.go_on(pass, program, reads));
            }
        }
        Ok(Work::Execute(pass, execution))
    }

    /// Makes the changes one by one; with the last one made, the pass is executed.
    fn record(&mut self, pass: Pass, mut recording: Recording) -> Result<Work<'a>, Failure> {
        if let Some(change) = recording.changes.pop() {
            let incarnation =
                if self.planted(Plant::OneIncarnation) { 0 } else { pass.incarnation };
            let written = Pass { incarnation, ..pass };
            recording.wrote_new_path |=
                change.apply(&self.shared.map, written, &mut self.counts)?;
            return Ok(Work::Record(pass, recording));
        }
        let Recording { reads, output, wrote_new_path, .. } = recording;
        let incarnation = pass.incarnation;
        *locked(self.result(pass)) = Recorded { incarnation, reads: Arc::new(reads), output };
        let wrote_new_path = wrote_new_path && !self.planted(Plant::ForgetNewPath);
        Ok(self.take(self.shared.scheduler.finish_execution(pass, wrote_new_path)))
    }

    /// Reads again, and compares what it finds with what the pass found.
    fn validate(&mut self, pass: Pass, mut validation: Validation) -> Result<Work<'a>, Failure> {
        let Shared { map, block, scheduler, .. } = self.shared;
        let Some((location, recorded)) = validation.reads.get(validation.at) else {
            return Ok(self.take(scheduler.finish_validation(pass.txn_idx, false)));
        };
        let fresh = Reader::new(*location, pass.txn_idx);
        let reader = validation.reader.get_or_insert(fresh);
        let found = match reader.step(map, &block.storage, &mut self.counts)? {
            Progress::Again => return Ok(Work::Validate(pass, validation)),
            Progress::Blocked(_) => None,
            Progress::Found(found, _) => Some(found),
        };
        if !found.is_some_and(|found| self.agrees(*recorded, found))
            && !self.planted(Plant::SkipValidation)
        {
            return Ok(self.fail(pass));
        }
        validation.at += 1;
        validation.reader = None;
        Ok(Work::Validate(pass, validation))
    }

    fn agrees(&self, recorded: Descriptor, found: Descriptor) -> bool {
        match (self.shared.plant, recorded, found) {
            (Some(Plant::AnyNumber), Descriptor::Number(_), Descriptor::Number(_)) => true,
            (Some(Plant::AnySize), Descriptor::Size(_), Descriptor::Size(_)) => true,
            _ => recorded == found,
        }
    }

    fn fail(&mut self, pass: Pass) -> Work<'a> {
        self.counts.count(Met::FailedValidation);
        if !self.shared.scheduler.try_validation_abort(pass) {
            return self.take(self.shared.scheduler.finish_validation(pass.txn_idx, false));
        }
        self.counts.count(Met::Abort);
        let places = recording::places(&locked(self.result(pass)).output);
        let places = if self.planted(Plant::ForgetEstimate) { Vec::new() } else { places };
        Work::Abort(pass, places)
    }

    /// Marks what the pass wrote as estimates, then lets the next incarnation run.
    fn abort(&mut self, pass: Pass, mut places: Vec<Place>) -> Result<Work<'a>, Failure> {
        let Some(place) = places.pop() else {
            return Ok(self.take(self.shared.scheduler.finish_validation(pass.txn_idx, true)));
        };
        place.mark_estimate(&self.shared.map, pass.txn_idx)?;
        Ok(Work::Abort(pass, places))
    }
}
