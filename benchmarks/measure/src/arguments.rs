//! The command line.

use std::path::PathBuf;

pub const USAGE: &str = "compare [--quick] [--no-growth] [--csv FILE] [--row ROW] [--only NAME]
  --quick       one short pass
  --no-growth   only the table at 512 units
  --csv FILE    every figure, a line each
  --row ROW     only this row, by its name in the table
  --only NAME   only this contestant, by its name in the table (for a profile)";

/// Passes, and what a row of the table and a row of the growth may take in each.
const PASSES: usize = 4;
const TABLE_SECONDS: f64 = 1.5;
const GROWTH_SECONDS: f64 = 0.3;

pub struct Arguments {
    quick: bool,
    pub growth: bool,
    pub csv: Option<PathBuf>,
    row: Option<String>,
    only: Option<String>,
}

impl Arguments {
    /// `None` for what is not in the usage.
    pub fn read(mut words: impl Iterator<Item = String>) -> Option<Self> {
        let mut arguments = Self { quick: false, growth: true, csv: None, row: None, only: None };
        while let Some(word) = words.next() {
            match word.as_str() {
                "--quick" => arguments.quick = true,
                "--no-growth" => arguments.growth = false,
                "--csv" => arguments.csv = Some(PathBuf::from(words.next()?)),
                "--row" => arguments.row = Some(words.next()?),
                "--only" => arguments.only = Some(words.next()?),
                _ => return None,
            }
        }
        Some(arguments)
    }

    pub fn wants_row(&self, row: &str) -> bool {
        self.row.as_ref().is_none_or(|wanted| wanted == row)
    }

    pub fn wants_contestant(&self, name: &str) -> bool {
        self.only.as_ref().is_none_or(|wanted| wanted == name)
    }

    pub fn passes(&self) -> usize {
        if self.quick {
            1
        } else {
            PASSES
        }
    }

    /// What a row may take in a pass.
    pub fn seconds(&self, in_table: bool) -> f64 {
        match (self.quick, in_table) {
            (true, _) => GROWTH_SECONDS,
            (false, true) => TABLE_SECONDS,
            (false, false) => GROWTH_SECONDS,
        }
    }
}
