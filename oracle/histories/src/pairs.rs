//! Demand 3: pairs of histories that differ only in tickets that a reader at t must not notice.

use crate::{
    compare::{Outcome, Until},
    generate::Source,
    history::History,
    profile::Profile,
    profiles,
    program::Program,
    rng::Rng,
    search, shrink,
};
use driver::checks::checked;
use request::{readable, Kind};
use std::{
    fmt::Write,
    iter,
    sync::atomic::{AtomicU64, Ordering::Relaxed},
    time::{Duration, Instant},
};

/// A ticket and the sides that it stands on.
#[derive(Clone)]
struct Step {
    ticket: Vec<u32>,
    left: bool,
    right: bool,
}

struct Pair {
    t: u32,
    steps: Vec<Step>,
}

/// One side's tickets with the lines that the program printed for them.
struct Side {
    turns: Vec<(Vec<u32>, String)>,
    /// Whether each ticket had its line.
    whole: bool,
}

#[derive(PartialEq, Eq)]
enum Verdict {
    /// The hypotheses do not hold.
    NotMet,
    /// Every kept ticket has the same line on both sides.
    Same,
    Differs,
}

/// Runs until so many pairs met the hypotheses, or the time is over; fails if none met them.
pub fn compare(program: &Program, seed: u64, until: &Until) -> Outcome {
    let start = Instant::now();
    let (pairs, met) = (AtomicU64::new(0), AtomicU64::new(0));
    let found = search::first(
        |_| met.load(Relaxed) < until.count && start.elapsed() < Duration::from_secs(until.seconds),
        |n| {
            let pair = pair(seed, n);
            if pair.steps.iter().all(|step| step.left && step.right) {
                return None; // One history, not two.
            }
            pairs.fetch_add(1, Relaxed);
            match judge(program, pair.t, &pair.steps) {
                Verdict::NotMet => return None,
                Verdict::Same => {
                    met.fetch_add(1, Relaxed);
                    return None;
                }
                Verdict::Differs => {}
            }
            Some(format!("seed {seed}, pair {n}: {}", report(program, &pair)))
        },
    );
    let (pairs, met) = (pairs.into_inner(), met.into_inner());
    match found {
        Some(report) => Err(report),
        None if met == 0 => Err(format!("none of {pairs} pairs met the hypotheses")),
        None => Ok(format!("{met} of {pairs} pairs met the hypotheses, seed {seed}")),
    }
}

/// From the program's own lines: which tickets are nameless, and whether the hypotheses hold.
fn judge(program: &Program, t: u32, steps: &[Step]) -> Verdict {
    let sides = [Step::is_left, Step::is_right].map(|on| side(program, steps, on));
    if sides.iter().any(|side| !side.whole) {
        return Verdict::Differs;
    }
    let [left, right] = sides.each_ref().map(|side| side.kept(t));
    let same_tickets = left.iter().map(|turn| &turn.0).eq(right.iter().map(|turn| &turn.0));
    if !same_tickets || sides.iter().any(|side| side.lacks_slots() || side.finalises(t)) {
        return Verdict::NotMet;
    }
    match left == right {
        true => Verdict::Same,
        false => Verdict::Differs,
    }
}

impl Step {
    fn is_left(&self) -> bool {
        self.left
    }

    fn is_right(&self) -> bool {
        self.right
    }

    fn plainer(&self) -> Vec<Step> {
        let tickets = shrink::plainer(&self.ticket).into_iter();
        tickets.map(|ticket| Step { ticket, ..self.clone() }).collect()
    }
}

fn side(program: &Program, steps: &[Step], on: fn(&Step) -> bool) -> Side {
    let on_it = steps.iter().filter(|step| on(step));
    let tickets: Vec<Vec<u32>> = on_it.map(|step| step.ticket.clone()).collect();
    let printed = program.print(&History::of(tickets.clone()).bytes());
    let whole = printed.fault.is_none() && printed.lines.len() == tickets.len();
    let lines = printed.lines.into_iter().chain(printed.fault);
    let lines = lines.chain(iter::repeat("nothing".to_string()));
    Side { turns: tickets.into_iter().zip(lines).collect(), whole }
}

impl Side {
    fn kept(&self, t: u32) -> Vec<&(Vec<u32>, String)> {
        let kept = |turn: &&(Vec<u32>, String)| {
            let nameless = turn.1 == "no 2" || turn.1 == "no 3";
            is_kept(&turn.0, nameless, t)
        };
        self.turns.iter().filter(kept).collect()
    }

    /// "No ticket in either is refused for lack of units", dropped ones included.
    fn lacks_slots(&self) -> bool {
        self.turns.iter().any(|(_, line)| line == "no 14")
    }

    /// "Nothing is finalised at t or above": to finalise is an accepted kind 15.
    fn finalises(&self, t: u32) -> bool {
        self.turns.iter().any(|(ticket, line)| !line.starts_with("no ") && is_finalise(ticket, t))
    }
}

fn is_finalise(ticket: &[u32], t: u32) -> bool {
    let kind = Kind::of_head(ticket[0]);
    kind == Kind::Finalise && kind.index(ticket).is_some_and(|index| index >= t)
}

/// Kept at t: names no index, or one below t, or is a read that names t itself.
fn is_kept(ticket: &[u32], nameless: bool, t: u32) -> bool {
    let kind = Kind::of_head(ticket[0]);
    match kind.index(ticket) {
        Some(index) if !nameless => index < t || (kind.is_read() && index == t),
        _ => true,
    }
}

fn kept_by_its_words(ticket: &[u32], t: u32) -> bool {
    is_kept(ticket, matches!(checked(ticket), Err(2 | 3)), t)
}

/// Profiles that fill a store meet 14, which ends the hypotheses, so they are left out.
fn pair(seed: u64, number: u64) -> Pair {
    let suited: Vec<Profile> =
        profiles::ALL.into_iter().filter(|profile| !profile.name.contains("fills up")).collect();
    let profile = suited[number as usize % suited.len()];
    let mut source = Source::new(profile, Rng::new(!seed, number));
    let t = source.index();
    let tickets = 20 + source.rng.below(60);
    let steps = (0..tickets).filter_map(|_| step(&mut source, t)).collect();
    Pair { t, steps }
}

/// A kept ticket stands on both sides, a dropped one on any. A finalise at t or above is nearly
/// always left out: where it is accepted the pair does not count.
fn step(source: &mut Source, t: u32) -> Option<Step> {
    let ticket = source.ticket();
    if is_finalise(&ticket, t) && source.rng.chance(95) {
        return None;
    }
    let dropped = !kept_by_its_words(&ticket, t);
    let (left, right) = match dropped {
        true => source.rng.pick(&[(true, false), (false, true), (true, true)]),
        false => (true, true),
    };
    Some(Step { ticket, left, right })
}

fn report(program: &Program, pair: &Pair) -> String {
    let differs = |steps: &[Step]| judge(program, pair.t, steps) == Verdict::Differs;
    let steps = shrink::least(&pair.steps, Step::plainer, differs);
    let mut text = format!("kept at t = {} and not the same, shrunk:\n", pair.t);
    for (name, on) in [("left", Step::is_left as fn(&Step) -> bool), ("right", Step::is_right)] {
        writeln!(text, "  {name} history:").expect("a string takes all");
        for (ticket, line) in side(program, &steps, on).turns {
            let mark = match kept_by_its_words(&ticket, pair.t) {
                true => "kept   ",
                false => "dropped",
            };
            let (ticket, line) = (readable::ticket(&ticket), readable::answer(&line));
            writeln!(text, "    {mark} {ticket}\n            {line}").expect("as above");
        }
    }
    text
}
