//! A small Block-STM executor over the store: threads, estimates, aborts, re-execution, validation
//! by reading again. It runs generated blocks in odd orders of passes, and the final values must be
//! those of running the transactions one by one. README.md beside this file has the commands.

mod adversary;
mod block;
mod commit;
mod counts;
mod executor;
mod failure;
mod final_values;
mod op;
mod options;
mod plant;
mod program;
mod progress;
// The generator of the crate's tests.
#[allow(dead_code)]
#[path = "../../tests/common/random.rs"]
mod random;
mod reader;
mod recording;
mod reference;
mod scheduler;
mod worker;

use adversary::Order;
use block::Block;
use counts::{Counts, Met, Tally};
use executor::Setting;
use failure::Failure;
use options::{Asked, Options};
use plant::Plant;
use progress::Progress;
use random::Random;
use reference::Outcome;
use std::process::ExitCode;

const FAILED: u8 = 1;
const WRONG_USE: u8 = 2;

fn main() -> ExitCode {
    match Options::read(std::env::args().skip(1)) {
        Ok(Asked::Run(options)) => run(&options),
        Ok(Asked::Help) => {
            println!("{}", options::USAGE);
            ExitCode::SUCCESS
        }
        Ok(Asked::Plants) => {
            Plant::ALL.iter().for_each(|(name, _)| println!("{name}"));
            ExitCode::SUCCESS
        }
        Err(message) => {
            eprintln!("{message}\n\n{}", options::USAGE);
            ExitCode::from(WRONG_USE)
        }
    }
}

fn run(options: &Options) -> ExitCode {
    let runs = options.most_runs();
    let mut progress = Progress::new(runs, options.time);
    let mut tally = Tally::default();
    let mut seeds = Random::seeded(options.seed);
    while runs.is_none_or(|runs| tally.sum(Met::Block) < runs) && !progress.out_of_time() {
        let setting = setting(options, options.block.unwrap_or_else(|| seeds.next()));
        let counts = if setting.threads { &mut tally.threads } else { &mut tally.stepped };
        if let Err(failure) = run_block(&setting, counts) {
            progress.clear();
            report(options, &setting, &failure, tally.sum(Met::Block));
            return ExitCode::from(FAILED);
        }
        progress.show(&tally);
    }
    progress.clear();
    println!("All values as one by one, in {:.1} s", progress.seconds());
    print!("{tally}");
    tells_enough(options, &tally)
}

/// A run of many blocks that met no conflict has tested nothing.
fn tells_enough(options: &Options, tally: &Tally) -> ExitCode {
    let missing = tally.missing();
    if options.block.is_some() || missing.is_empty() {
        return ExitCode::SUCCESS;
    }
    eprintln!("FAILED: the run tests too little. It met no {}", missing.join(", no "));
    ExitCode::from(FAILED)
}

/// How a block is run follows from its seed, so that the seed is enough to run it again.
fn setting(options: &Options, seed: u64) -> Setting {
    let mut random = Random::seeded(!seed);
    Setting {
        seed,
        order: random.pick(&Order::ALL),
        workers: 1 + random.below(8) as usize,
        threads: options.threads.unwrap_or(random.chance(2)),
        data_units: options.data_units,
        group_units: options.group_units,
        plant: options.plant,
    }
}

fn run_block(setting: &Setting, counts: &mut Counts) -> Result<(), Failure> {
    let block = Block::generated(setting.seed);
    let outcome = Outcome::of(&block);
    let shared = executor::run(&block, setting, counts)?;
    commit::commit(&shared, &outcome, counts)?;
    final_values::compare(&shared, &outcome, counts)
}

fn report(options: &Options, setting: &Setting, failure: &Failure, number: u64) {
    let Setting { seed, order, workers, threads, .. } = setting;
    let how = if *threads { "in threads" } else { "stepped" };
    eprintln!("FAILED in block {number}, seed {seed} ({workers} workers {how}, order {order:?})");
    eprintln!("{failure}");
    // A stepped block takes the same steps again; threads need many tries.
    let tries = if *threads { " --runs 1000" } else { "" };
    let again = options.again(*seed);
    eprintln!("To run this block again, in bindings/rust:");
    eprintln!("  cargo run --release --example block_stm -- {again}{tries}");
}
