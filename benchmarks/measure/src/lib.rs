//! The benchmark: rows, contestants, rounds and tables.

pub mod arguments;
pub mod clock;
pub mod contestant;
pub mod library;
pub mod report;
pub mod rounds;
pub mod rows;
pub mod scenario;

pub use contestant::Contestant;

use arguments::Arguments;
use rounds::{measure, Measured};
use scenario::Scenario;

/// The store of the table: 480 entries in 512 units.
const UNITS: usize = 512;
/// The stores of the growth: 16, 32, .., 4,096 units.
const GROWTH: std::ops::RangeInclusive<u32> = 4..=12;

/// The whole program, given who takes part.
pub fn run(
    arguments: &Arguments,
    mut contestants: Vec<Box<dyn Contestant>>,
) -> std::io::Result<()> {
    contestants.retain(|contestant| arguments.wants_contestant(contestant.name()));
    let scenarios = scenarios(arguments);
    let start = |scenario| Measured::new(scenario, &contestants);
    let mut all: Vec<Measured> = scenarios.iter().map(start).collect();
    for pass in 1..=arguments.passes() {
        for (scenario, measured) in scenarios.iter().zip(&mut all) {
            let (row, units) = (scenario.row, scenario.units);
            eprintln!("pass {pass}, {row} at {units} units: {}", report::mix(&scenario.timed));
            let seconds = arguments.seconds(units == UNITS);
            measure(scenario, &mut contestants, seconds, measured);
        }
    }
    let table: Vec<&Measured> = all.iter().filter(|measured| measured.units == UNITS).collect();
    print!("{}", report::table(&table));
    if let Some(fetch) = table.iter().find(|measured| measured.row == rows::FETCH) {
        print!("\n{}", report::spread(fetch));
    }
    if arguments.growth {
        print!("\n{}", report::growth(&all));
    }
    if arguments.wants_row(rows::SCAN) {
        print!("\n{}", report::scan(&all));
    }
    match &arguments.csv {
        Some(path) => std::fs::write(path, report::csv(&all)),
        None => Ok(()),
    }
}

fn scenarios(arguments: &Arguments) -> Vec<Scenario> {
    let sizes: Vec<usize> = match arguments.growth {
        true => GROWTH.map(|power| 1 << power).collect(),
        false => vec![UNITS],
    };
    let rows = sizes.into_iter().flat_map(rows::all);
    rows.filter(|scenario| arguments.wants_row(scenario.row)).collect()
}
