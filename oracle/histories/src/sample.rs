//! The fixed sample: one history for the history program's own `stdin` and `stdout`.

use crate::{
    generate::Source, history::History, profile::Profile, profiles, rng::Rng, tally::Tally,
};
use driver::program::lines;
use request::{head_count, Kind, Request};
use std::{collections::BTreeSet, fs, io, path::Path};

/// The seed is part of the sample: another one is another sample.
const SEED: u64 = 1;
const ROUNDS: u64 = 2;

/// Writes both files and says what is in them.
pub fn write(folder: &Path) -> io::Result<String> {
    let history = history();
    let lines = lines(&history.bytes());
    let mut tally = Tally::default();
    tally.count(&lines);
    let mut missing = tally.missing();
    missing.extend(never_answered(&history, &lines));
    if !missing.is_empty() {
        return Err(io::Error::other(format!("the sample never meets {missing:?}")));
    }
    fs::write(folder.join("stdin"), history.bytes())?;
    fs::write(folder.join("stdout"), lines.join("\n") + "\n")?;
    Ok(format!("{} tickets: {tally}", lines.len()))
}

/// The kinds of ticket that are always refused.
fn never_answered(history: &History, lines: &[String]) -> Vec<String> {
    let turns = history.tickets.iter().zip(lines);
    let answered = turns.filter(|(_, line)| !line.starts_with("no "));
    let kinds: BTreeSet<Kind> = answered.map(|(ticket, _)| Kind::of_head(ticket[0])).collect();
    Kind::all().filter(|kind| !kinds.contains(kind)).map(|kind| kind.name().to_string()).collect()
}

/// 01's cases and parts of each profile, then the profiles that fill the stores, and a cut end.
fn history() -> History {
    let mut sample = Sample::default();
    for case in cases::all() {
        if !case.name.starts_with("14:") {
            sample.part(case.tickets);
        }
    }
    let (full, roomy): (Vec<_>, Vec<_>) =
        profiles::ALL.into_iter().partition(|profile| profile.name.contains("fills up"));
    for stream in 0..ROUNDS * roomy.len() as u64 {
        let profile = roomy[stream as usize % roomy.len()];
        sample.part(tickets(profile, stream, part_length(&profile)));
    }
    for profile in full {
        sample.tickets.extend(tickets(profile, u64::MAX, profile.length));
    }
    let cut = Request::fetch(0, 0).words()[..2].to_vec();
    History {
        tickets: sample.tickets,
        tail: cut.iter().flat_map(|word| word.to_le_bytes()).collect(),
    }
}

/// Updates of all 64 tags are long, and their bases are never freed.
fn part_length(profile: &Profile) -> usize {
    match profile.tags.len() {
        64 => 40,
        _ => profile.length,
    }
}

fn tickets(profile: Profile, stream: u64, length: usize) -> Vec<Vec<u32>> {
    let mut source = Source::new(profile, Rng::new(SEED, stream));
    (0..length).map(|_| source.ticket()).collect()
}

#[derive(Default)]
struct Sample {
    tickets: Vec<Vec<u32>>,
    parts: u32,
}

impl Sample {
    /// Adds the tickets on keys of their own, so that they meet nothing of earlier parts, and
    /// then removes what they left, so that the stores do not fill up yet.
    fn part(&mut self, tickets: Vec<Vec<u32>>) {
        self.parts += 1;
        let mut left = BTreeSet::new();
        for mut ticket in tickets {
            if ticket.len() != head_count(ticket[0]) + 1 {
                continue; // It would stop the program here.
            }
            if Request::decode(&ticket).is_some() {
                ticket[1] ^= self.parts << 8;
                left.extend(removal(&ticket));
            }
            self.tickets.push(ticket);
        }
        let removals = left.into_iter();
        let removals = removals.map(|(kind, key, index)| Request::at(kind, key, index).words());
        self.tickets.extend(removals);
    }
}

fn removal(ticket: &[u32]) -> Option<(Kind, u32, u32)> {
    let kind = match Kind::of_head(ticket[0]) {
        Kind::Write | Kind::Delta => Kind::Remove,
        Kind::GroupWrite => Kind::GroupRemove,
        _ => return None,
    };
    Some((kind, ticket[1], ticket[2]))
}
