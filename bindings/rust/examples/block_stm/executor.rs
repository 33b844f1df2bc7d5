//! A block run by several workers, in threads or stepped by the adversary in one.

use crate::adversary::{Chooser, Crowd, Order, Seat};
use crate::block::Block;
use crate::counts::{Counts, Met};
use crate::failure::Failure;
use crate::plant::Plant;
use crate::random::Random;
use crate::scheduler::{locked, Scheduler};
use crate::worker::{Recorded, Shared, Step, Worker};
use proved_mvhashmap::MVHashMap;
use std::sync::atomic::{AtomicU64, Ordering::SeqCst};
use std::sync::Mutex;
use std::thread;
use std::time::Duration;

/// How a block is run. All of it follows from the block's seed, but for the units and the plant.
#[derive(Debug, Clone, Copy)]
pub struct Setting {
    pub seed: u64,
    pub order: Order,
    pub workers: usize,
    pub threads: bool,
    pub data_units: usize,
    pub group_units: usize,
    pub plant: Option<Plant>,
}

/// A block takes some thousands of steps; this many are no end.
const MOST_STEPS: u64 = 500_000;

/// So many times in a row nobody had work: a task or a wake-up was lost. After the first thousand a
/// worker sleeps between, so that one who has work and no core comes to it long before the end.
const MOST_IDLE: u64 = 5_000;
const IDLE_AWAKE: u64 = 1_000;
const NAP: Duration = Duration::from_millis(1);

/// Runs a block. What it counted is told also of a run that failed.
pub fn run<'a>(
    block: &'a Block,
    setting: &Setting,
    counts: &mut Counts,
) -> Result<Shared<'a>, Failure> {
    let size = block.transactions.len();
    let shared = Shared {
        block,
        map: MVHashMap::with_units(setting.data_units, setting.group_units),
        scheduler: Scheduler::new(size, setting.plant),
        results: (0..size).map(|_| Mutex::new(Recorded::default())).collect(),
        preference: setting.order.preference(),
        plant: setting.plant,
    };
    counts.count(Met::Block);
    counts.count_many(Met::Transaction, size as u64);
    if setting.threads {
        in_threads(&shared, setting, counts)?;
    } else {
        stepped(&shared, setting, counts)?;
    }
    Ok(shared)
}

/// One thread, and the adversary chooses whose step is next: the same seed, the same run.
fn stepped(shared: &Shared<'_>, setting: &Setting, counts: &mut Counts) -> Result<(), Failure> {
    let mut workers: Vec<Worker<'_>> = (0..setting.workers).map(|_| Worker::new(shared)).collect();
    let mut chooser = Chooser::new(setting.order, setting.seed);
    let ended = step_all(&mut workers, &mut chooser);
    workers.iter().for_each(|worker| counts.add(&worker.counts));
    ended
}

fn step_all(workers: &mut [Worker<'_>], chooser: &mut Chooser) -> Result<(), Failure> {
    let mut seats = Vec::with_capacity(workers.len());
    for _ in 0..MOST_STEPS {
        seats.clear();
        let unfinished = workers.iter().enumerate().filter(|(_, worker)| !worker.finished());
        seats.extend(unfinished.map(|(number, worker)| seat(number, worker)));
        if seats.is_empty() {
            return Ok(());
        }
        workers[chooser.choose(&seats)].step()?;
    }
    Err(too_many_steps())
}

fn seat(number: usize, worker: &Worker<'_>) -> Seat {
    let (step, txn_idx) = worker.next_step();
    (number, step, txn_idx)
}

/// What threads tell each other besides the scheduler.
struct Together {
    crowd: Crowd,
    /// Steps that had work.
    worked: AtomicU64,
    failure: Mutex<Option<Failure>>,
}

fn in_threads(shared: &Shared<'_>, setting: &Setting, counts: &mut Counts) -> Result<(), Failure> {
    let together = Together {
        crowd: Crowd::new(setting.order, setting.workers),
        worked: AtomicU64::new(0),
        failure: Mutex::new(None),
    };
    thread::scope(|scope| {
        let start = |number: usize| {
            let together = &together;
            let random = Random::seeded(setting.seed ^ number as u64);
            scope.spawn(move || drive(shared, together, number, random))
        };
        let threads: Vec<_> = (0..setting.workers).map(start).collect();
        for thread in threads {
            counts.add(&thread.join().expect("a worker does not panic"));
        }
    });
    together.failure.into_inner().expect("a worker does not panic").map_or(Ok(()), Err)
}

/// One thread's worker, to the end of the block or to the first failure of anyone.
fn drive(shared: &Shared<'_>, together: &Together, number: usize, mut random: Random) -> Counts {
    let mut worker = Worker::new(shared);
    let mut idle = Idle::default();
    while !worker.finished() && locked(&together.failure).is_none() {
        let seat = seat(number, &worker);
        together.crowd.before_step(seat, &mut random);
        let stepped = worker.step().and_then(|()| idle.watch(&worker, &together.worked));
        together.crowd.after_step(number);
        if let Err(failure) = stepped {
            locked(&together.failure).get_or_insert(failure);
        }
    }
    worker.counts
}

/// How often in a row a worker had no work while nobody else worked either.
#[derive(Default)]
struct Idle {
    worked: u64,
    count: u64,
}

impl Idle {
    fn watch(&mut self, worker: &Worker<'_>, worked: &AtomicU64) -> Result<(), Failure> {
        if worker.next_step().0 != Step::Ask {
            self.count = 0;
            let before = worked.fetch_add(1, SeqCst);
            return if before < MOST_STEPS { Ok(()) } else { Err(too_many_steps()) };
        }
        let now = worked.load(SeqCst);
        self.count = if now == self.worked { self.count + 1 } else { 0 };
        self.worked = now;
        if self.count < IDLE_AWAKE {
            thread::yield_now();
        } else {
            thread::sleep(NAP);
        }
        if self.count < MOST_IDLE {
            Ok(())
        } else {
            Err(Failure::Stalled("nobody has work".into()))
        }
    }
}

fn too_many_steps() -> Failure {
    Failure::Stalled(format!("{MOST_STEPS} steps were made"))
}
