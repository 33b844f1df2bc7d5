//! Odd orders of passes. One adversary chooses whose step is next, from its seed alone; the other
//! holds real threads back.

use crate::random::Random;
use crate::scheduler::Preference;
use crate::worker::Step;
use proved_mvhashmap::TxnIndex;
use std::sync::atomic::{AtomicI64, AtomicU64, Ordering::Relaxed};

#[derive(Debug, Clone, Copy, PartialEq, Eq)]
pub enum Order {
    /// In turn; threads as they come.
    Even,
    Random,
    /// One goes on for long, then another.
    Bursts,
    ValidationsFirst,
    ValidationsLast,
    /// The highest index goes on, and is taken first.
    HighestFirst,
    /// Two workers, a step each.
    LockStep,
    /// A worker falls asleep in the middle of its writes.
    SleepInWrites,
}

impl Order {
    pub const ALL: [Order; 8] = [
        Order::Even,
        Order::Random,
        Order::Bursts,
        Order::ValidationsFirst,
        Order::ValidationsLast,
        Order::HighestFirst,
        Order::LockStep,
        Order::SleepInWrites,
    ];

    pub fn preference(self) -> Preference {
        match self {
            Order::ValidationsLast => Preference::ExecutionsFirst,
            Order::HighestFirst => Preference::HighestFirst,
            _ => Preference::Paper,
        }
    }
}

/// A worker that can step: its number, what it would do, and for which transaction.
pub type Seat = (usize, Step, Option<TxnIndex>);

/// Chooses the next step, in one thread.
pub struct Chooser {
    order: Order,
    random: Random,
    turn: usize,
    /// Who goes on, or sleeps, and for how many choices more.
    held: usize,
    left: u32,
}

impl Chooser {
    pub fn new(order: Order, seed: u64) -> Self {
        Chooser { order, random: Random::seeded(seed), turn: 0, held: 0, left: 0 }
    }

    /// The number of one of the seats, of which there is at least one. Now and then it is any of
    /// them, so that nobody starves.
    pub fn choose(&mut self, seats: &[Seat]) -> usize {
        self.turn += 1;
        if self.random.chance(8) {
            return self.any(seats, |_| true);
        }
        match self.order {
            Order::Even => seats[self.turn % seats.len()].0,
            Order::LockStep => seats[self.turn % 2 % seats.len()].0,
            Order::Random => self.any(seats, |_| true),
            Order::Bursts => self.burst(seats),
            Order::ValidationsFirst => self.any(seats, |seat| seat.1 == Step::Validate),
            Order::ValidationsLast => self.any(seats, |seat| seat.1 != Step::Validate),
            Order::HighestFirst => self.highest(seats),
            Order::SleepInWrites => self.awake(seats),
        }
    }

    /// Any of those that are wanted, or of all if none is.
    fn any(&mut self, seats: &[Seat], wanted: impl Fn(&Seat) -> bool) -> usize {
        let mut among: Vec<usize> = seats.iter().filter(|s| wanted(s)).map(|s| s.0).collect();
        if among.is_empty() {
            among = seats.iter().map(|seat| seat.0).collect();
        }
        self.random.pick(&among)
    }

    fn highest(&mut self, seats: &[Seat]) -> usize {
        let highest = seats.iter().filter_map(|seat| seat.2).max();
        self.any(seats, |seat| seat.2 == highest)
    }

    fn burst(&mut self, seats: &[Seat]) -> usize {
        if self.left == 0 {
            self.held = self.any(seats, |_| true);
            self.left = 1 + self.random.below(40);
        }
        self.left -= 1;
        let held = self.held;
        self.any(seats, |seat| seat.0 == held)
    }

    fn awake(&mut self, seats: &[Seat]) -> usize {
        if self.left == 0 {
            self.held = self.any(seats, |seat| seat.1 == Step::Write);
            self.left = 1 + self.random.below(60);
        }
        self.left -= 1;
        let asleep = self.held;
        self.any(seats, |seat| seat.0 != asleep)
    }
}

/// No hold is for ever: the others may all be held too.
const LONGEST_HOLD: u32 = 100;

/// Holds threads back, each before its steps.
#[derive(Debug)]
pub struct Crowd {
    order: Order,
    moved: AtomicU64,
    /// For each worker its steps and its transaction, -1 for none.
    steps: Vec<AtomicU64>,
    transactions: Vec<AtomicI64>,
}

impl Crowd {
    pub fn new(order: Order, workers: usize) -> Self {
        Crowd {
            order,
            moved: AtomicU64::new(0),
            steps: (0..workers).map(|_| AtomicU64::new(0)).collect(),
            transactions: (0..workers).map(|_| AtomicI64::new(-1)).collect(),
        }
    }

    pub fn before_step(&self, seat: Seat, random: &mut Random) {
        let (worker, step, txn_idx) = seat;
        if self.steps.len() == 1 {
            return;
        }
        self.transactions[worker].store(txn_idx.map_or(-1, i64::from), Relaxed);
        match (self.order, step) {
            (Order::Random | Order::Bursts, _) => self.disturb(random),
            (Order::ValidationsFirst, Step::Read | Step::Write) => self.hold(random.below(4)),
            (Order::ValidationsLast, Step::Validate) => self.hold(random.below(12)),
            (Order::SleepInWrites, Step::Write) if worker % 2 == 0 => {
                self.hold(random.below(40));
            }
            (Order::HighestFirst, Step::Read | Step::Write | Step::Validate)
                if self.someone_is_higher(txn_idx) =>
            {
                self.hold(random.below(8));
            }
            (Order::LockStep, _) => self.keep_step(worker),
            _ => (),
        }
    }

    pub fn after_step(&self, worker: usize) {
        self.steps[worker].fetch_add(1, Relaxed);
        self.moved.fetch_add(1, Relaxed);
    }

    fn disturb(&self, random: &mut Random) {
        match random.below(12) {
            0 => std::thread::yield_now(),
            1 => (0..random.below(300)).for_each(|_| std::hint::spin_loop()),
            2 => self.hold(1 + random.below(12)),
            _ => (),
        }
    }

    /// Waits until the others have moved so many steps.
    fn hold(&self, steps: u32) {
        let end = self.moved.load(Relaxed) + u64::from(steps);
        yield_while(|| self.moved.load(Relaxed) < end);
    }

    /// Waits for the partner to have come as far. Who has none goes on.
    fn keep_step(&self, worker: usize) {
        if let Some(partner) = self.steps.get(worker ^ 1) {
            let mine = self.steps[worker].load(Relaxed);
            yield_while(|| partner.load(Relaxed) < mine);
        }
    }

    fn someone_is_higher(&self, txn_idx: Option<TxnIndex>) -> bool {
        let mine = txn_idx.map_or(-1, i64::from);
        self.transactions.iter().any(|other| other.load(Relaxed) > mine)
    }
}

fn yield_while(condition: impl Fn() -> bool) {
    for _ in 0..LONGEST_HOLD {
        if !condition() {
            return;
        }
        std::thread::yield_now();
    }
}
