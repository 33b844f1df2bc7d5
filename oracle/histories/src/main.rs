//! `histories`: the oracle and the history program, side by side.

use histories::{
    arguments::Arguments,
    compare::{self, Outcome, Until},
    generate,
    history::History,
    pairs,
    program::Program,
    sample,
};
use std::{env, io, io::Read, io::Write, path::Path, process::ExitCode, time::Instant};

const USAGE: &str = "\
usage: histories COMMAND, where PROGRAM is a history program (words on stdin, lines on stdout)

  compare PROGRAM [--seed N] [--tickets N] [--seconds N]
        01's cases, the listed differences, every short history and random ones;
        the first difference, shrunk
  pairs PROGRAM [--seed N] [--pairs N] [--seconds N]
        demand 3: pairs of histories that differ only in dropped tickets
  sample FOLDER
        writes the fixed sample to FOLDER/stdin and FOLDER/stdout
  read [--history N [--seed N]]
        words on stdin, or a random history, as readable tickets with the oracle's lines

With --seconds alone, a run ends only then.";

const SEED: u64 = 1;
const TICKETS: u64 = 200_000;
const PAIRS: u64 = 2_000;

fn main() -> ExitCode {
    match run() {
        Ok(text) => {
            // A reader that has seen enough may close the pipe.
            writeln!(io::stdout(), "{text}").unwrap_or_default();
            ExitCode::SUCCESS
        }
        Err(text) => {
            eprintln!("{text}");
            ExitCode::FAILURE
        }
    }
}

fn run() -> Outcome {
    let arguments = Arguments::read(env::args().skip(1))?;
    let seed = arguments.number("seed").unwrap_or(SEED);
    match arguments.words()[..] {
        ["compare", program] => {
            let program = open(program)?;
            timed("compared", || compare::cases(&program))?;
            timed("compared", || compare::differences(&program))?;
            timed("compared", || compare::short_ones(&program))?;
            let until = until(&arguments, "tickets", TICKETS);
            timed("compared", || compare::random_ones(&program, seed, &until))?;
            Ok("no difference".to_string())
        }
        ["pairs", program] => {
            let program = open(program)?;
            let until = until(&arguments, "pairs", PAIRS);
            timed("demand 3", || pairs::compare(&program, seed, &until))?;
            Ok("kept lines are the same".to_string())
        }
        ["sample", folder] => sample::write(Path::new(folder)).map_err(|error| error.to_string()),
        ["read"] => match arguments.number("history") {
            Some(number) => Ok(readable(&generate::history(seed, number).1.bytes())),
            None => read_stdin().map(|bytes| readable(&bytes)).map_err(|error| error.to_string()),
        },
        _ => Err(USAGE.to_string()),
    }
}

fn open(path: &str) -> Result<Program, String> {
    Program::new(path).map_err(|error| format!("{path}: {error}"))
}

fn until(arguments: &Arguments, name: &str, usual: u64) -> Until {
    let (count, seconds) = (arguments.number(name), arguments.number("seconds"));
    let usual = if seconds.is_some() { u64::MAX } else { usual };
    Until { count: count.unwrap_or(usual), seconds: seconds.unwrap_or(u64::MAX) }
}

fn timed(what: &str, run: impl FnOnce() -> Outcome) -> Result<(), String> {
    let start = Instant::now();
    let text = run()?;
    println!("{what} {text} ({:.1} s)", start.elapsed().as_secs_f64());
    Ok(())
}

fn read_stdin() -> io::Result<Vec<u8>> {
    let mut bytes = Vec::new();
    io::stdin().read_to_end(&mut bytes)?;
    Ok(bytes)
}

fn readable(bytes: &[u8]) -> String {
    let history = History::cut(bytes);
    let lines = driver::program::lines(bytes);
    let turns = lines.iter().enumerate();
    let texts =
        turns.map(|(n, line)| format!("{:4}  {}\n      {line}", n + 1, history.describe(n)));
    texts.collect::<Vec<_>>().join("\n")
}
