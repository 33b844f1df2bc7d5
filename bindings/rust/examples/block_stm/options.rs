//! The command line.

use crate::plant::Plant;
use proved_mvhashmap::MAX_UNITS;
use std::time::Duration;

const DATA_UNITS: usize = 512;
const GROUP_UNITS: usize = 1024;

pub const USAGE: &str = "\
block_stm: runs generated blocks in parallel over the store and compares with one by one

  --runs N         so many blocks (2000, or no end if --seconds is given)
  --seconds S      no new block after so many seconds
  --seed X         the seed of all blocks (1)
  --block SEED     one block alone, by the seed that a failure names; --runs repeats it
  --only HOW       only blocks in threads, or only stepped ones: threads, stepped
  --data-units N   units of the data store (512)
  --group-units N  units of the group store (1024)
  --help           this text";

#[derive(Debug, Clone)]
pub struct Options {
    pub runs: Option<u64>,
    pub time: Option<Duration>,
    pub seed: u64,
    pub block: Option<u64>,
    /// Only blocks in threads, or only stepped ones.
    pub threads: Option<bool>,
    pub data_units: usize,
    pub group_units: usize,
    /// A planted fault; not in the usage, as it is there to test the test.
    pub plant: Option<Plant>,
}

/// What the command line asks for.
#[derive(Debug)]
pub enum Asked {
    Run(Options),
    Help,
    Plants,
}

impl Options {
    pub fn read(arguments: impl Iterator<Item = String>) -> Result<Asked, String> {
        let mut options = Options {
            runs: None,
            time: None,
            seed: 1,
            block: None,
            threads: None,
            data_units: DATA_UNITS,
            group_units: GROUP_UNITS,
            plant: None,
        };
        let mut arguments = arguments;
        while let Some(name) = arguments.next() {
            match name.as_str() {
                "--help" => return Ok(Asked::Help),
                "--plants" => return Ok(Asked::Plants),
                _ => (),
            }
            let value = arguments.next().ok_or_else(|| format!("{name} needs a value"))?;
            options.set(&name, &value)?;
        }
        Ok(Asked::Run(options))
    }

    fn set(&mut self, name: &str, value: &str) -> Result<(), String> {
        match name {
            "--runs" => self.runs = Some(number(name, value)?),
            "--seconds" => self.time = Some(Duration::from_secs(number(name, value)?)),
            "--seed" => self.seed = number(name, value)?,
            "--block" => self.block = Some(number(name, value)?),
            "--only" => {
                self.threads = Some(match value {
                    "threads" => true,
                    "stepped" => false,
                    _ => return Err(format!("{name} needs threads or stepped, not {value}")),
                });
            }
            "--data-units" => self.data_units = units(name, value)?,
            "--group-units" => self.group_units = units(name, value)?,
            "--plant" => {
                let plant = Plant::named(value);
                self.plant = Some(plant.ok_or_else(|| format!("there is no plant {value}"))?);
            }
            _ => return Err(format!("there is no option {name}")),
        }
        Ok(())
    }

    /// The options that run one block again.
    pub fn again(&self, seed: u64) -> String {
        let mut again = format!("--block {seed}");
        if let Some(threads) = self.threads {
            again += if threads { " --only threads" } else { " --only stepped" };
        }
        if self.data_units != DATA_UNITS {
            again += &format!(" --data-units {}", self.data_units);
        }
        if self.group_units != GROUP_UNITS {
            again += &format!(" --group-units {}", self.group_units);
        }
        if let Some(plant) = self.plant {
            again += &format!(" --plant {}", plant.name());
        }
        again
    }

    /// How many blocks; none for no end.
    pub fn most_runs(&self) -> Option<u64> {
        match (self.runs, self.block, self.time) {
            (Some(runs), _, _) => Some(runs),
            (None, Some(_), _) => Some(1),
            (None, None, Some(_)) => None,
            (None, None, None) => Some(2000),
        }
    }
}

fn number(name: &str, value: &str) -> Result<u64, String> {
    value.parse().map_err(|_| format!("{name} needs a number, not {value}"))
}

fn units(name: &str, value: &str) -> Result<usize, String> {
    match value.parse() {
        Ok(units) if units <= MAX_UNITS => Ok(units),
        _ => Err(format!("{name} needs a number up to {MAX_UNITS}, not {value}")),
    }
}
