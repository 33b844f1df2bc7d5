//! Rounds that alternate between the contestants, so that noise hits all alike.

use crate::{contestant::Contestant, scenario::Scenario};
use std::time::Instant;

/// However slow a round is, there are so many in a pass, and some before them to warm up.
const LEAST_ROUNDS: usize = 8;
const WARM_UP: usize = 2;

pub struct Figures {
    pub name: &'static str,
    /// ns an operation, of each round.
    pub times: Vec<f64>,
}

impl Figures {
    /// The round that one of a hundred beats. The very best was once, for one contestant, a sixth
    /// below what all other runs had; why is not known.
    pub fn best(&self) -> f64 {
        self.at_share(0.01)
    }

    pub fn median(&self) -> f64 {
        self.at_share(0.5)
    }

    /// The round that beats one of a hundred.
    pub fn p99(&self) -> f64 {
        self.at_share(0.99)
    }

    fn at_share(&self, share: f64) -> f64 {
        let mut times = self.times.clone();
        times.sort_by(f64::total_cmp);
        times[(share * times.len() as f64) as usize]
    }

    pub fn rounds(&self) -> usize {
        self.times.len()
    }
}

pub struct Measured {
    pub row: &'static str,
    pub units: usize,
    pub figures: Vec<Figures>,
}

impl Measured {
    pub fn new(scenario: &Scenario, contestants: &[Box<dyn Contestant>]) -> Self {
        let names = contestants.iter().map(|c| c.name()).filter(|name| scenario.has(name));
        let figures = names.map(|name| Figures { name, times: vec![] });
        Self { row: scenario.row, units: scenario.units, figures: figures.collect() }
    }

    /// A contestant's figures, if it took part.
    pub fn of(&self, name: &str) -> Option<&Figures> {
        self.figures.iter().find(|figures| figures.name == name)
    }

    pub fn best(&self, name: &str) -> Option<f64> {
        self.of(name).map(Figures::best)
    }

    fn rounds(&self) -> usize {
        self.figures.iter().map(Figures::rounds).sum()
    }
}

/// A pass of rounds, added to what was measured before. A machine with other work on it is slow
/// for seconds on end, so each row has several passes, some time apart.
pub fn measure(
    scenario: &Scenario,
    contestants: &mut [Box<dyn Contestant>],
    seconds: f64,
    measured: &mut Measured,
) {
    let mut contestants: Vec<_> =
        contestants.iter_mut().filter(|contestant| scenario.has(contestant.name())).collect();
    for contestant in &mut contestants {
        contestant.take(scenario);
    }
    // The list is the same in every pass.
    if measured.rounds() == 0 {
        agree(scenario, &mut contestants);
    }
    let start = Instant::now();
    let mut round = 0;
    while round < WARM_UP + LEAST_ROUNDS || start.elapsed().as_secs_f64() < seconds {
        for (contestant, figures) in contestants.iter_mut().zip(&mut measured.figures) {
            if round % contestant.every() != 0 {
                continue;
            }
            let (time, sum) = contestant.round();
            std::hint::black_box(sum);
            if round >= WARM_UP {
                figures.times.push(time.as_nanos() as f64 / scenario.operations() as f64);
            }
        }
        round += 1;
    }
}

/// A benchmark on different work would be worth nothing: all must answer the list alike, and leave
/// the same behind.
fn agree(scenario: &Scenario, contestants: &mut [&mut Box<dyn Contestant>]) {
    let Some((first, others)) = contestants.split_first_mut() else {
        return;
    };
    let requests = scenario.compared();
    let expected = first.answers(&requests);
    assert_eq!(expected.len(), requests.len());
    for other in others {
        let answers = other.answers(&requests);
        assert_eq!(answers.len(), expected.len());
        for (n, (answer, expected)) in answers.iter().zip(&expected).enumerate() {
            assert!(
                answer == expected,
                "{} at {} units, request {n} ({}): {} answers {:X?}, {} {:X?}",
                scenario.row,
                scenario.units,
                requests[n],
                first.name(),
                expected,
                other.name(),
                answer
            );
        }
    }
}
