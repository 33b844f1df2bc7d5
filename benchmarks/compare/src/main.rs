//! `compare`: the old Rust and the proved library, from one program in one run.

use measure::{
    arguments::{Arguments, USAGE},
    library::{Inner, Open, Typed},
    Contestant,
};
use std::process::ExitCode;

fn contestants() -> Vec<Box<dyn Contestant>> {
    vec![
        #[cfg(feature = "real")]
        Box::new(old_real::Old::new("old, real")),
        Box::new(old_stand_ins::Old::new("old, stand-ins")),
        Box::<Inner>::default(),
        Box::<Typed>::default(),
        Box::<Open>::default(),
    ]
}

fn main() -> ExitCode {
    let Some(arguments) = Arguments::read(std::env::args().skip(1)) else {
        eprintln!("usage: {USAGE}");
        return ExitCode::from(2);
    };
    if cfg!(debug_assertions) {
        eprintln!("compare: built without --release, so it measures nothing");
        return ExitCode::FAILURE;
    }
    if cfg!(not(feature = "real")) {
        println!("The column of the real dashmap and crossbeam is missing: built without them.\n");
    }
    match measure::run(&arguments, contestants()) {
        Ok(()) => ExitCode::SUCCESS,
        Err(error) => {
            eprintln!("compare: {error}");
            ExitCode::FAILURE
        }
    }
}

#[cfg(test)]
mod tests {
    use super::contestants;
    use measure::rounds::{measure, Measured};
    use measure::rows;

    /// All agree on every row, of the smallest store, of one in which some rows have no room, and
    /// of one that has them all.
    #[test]
    fn every_row() {
        for units in [16, 64, 512] {
            for scenario in rows::all(units) {
                let mut contestants = contestants();
                let mut measured = Measured::new(&scenario, &contestants);
                measure(&scenario, &mut contestants, 0.0, &mut measured);
            }
        }
    }
}
