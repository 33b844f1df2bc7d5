//! The rows do what their names say.

use measure::{library::Inner, rows, scenario::Scenario, Contestant};
use request::{head_count, head_kind, Kind, Request, Value};
use std::collections::BTreeSet;

const UNITS: usize = 512;

fn row(name: &str) -> Scenario {
    let scenario = rows::all(UNITS).into_iter().find(|scenario| scenario.row == name);
    scenario.expect("a row of this name")
}

fn answers(scenario: &Scenario) -> Vec<Vec<u32>> {
    let mut inner = Inner::default();
    inner.take(scenario);
    inner.answers(&scenario.timed)
}

/// Keys and indexes of the requests of a kind, in their order.
fn places(requests: &[Request], kind: Kind) -> Vec<(u32, u32)> {
    let of_kind = requests.iter().filter(|request| request.kind() == kind);
    of_kind.map(Request::words).map(|words| (words[1], words[2])).collect()
}

fn is_rising(places: &[(u32, u32)]) -> bool {
    places.windows(2).all(|two| two[0] < two[1])
}

/// Writes and removals of a filling and emptying, each of all units.
fn filling(name: &str) -> [Vec<(u32, u32)>; 2] {
    let scenario = row(name);
    let both = [Kind::Write, Kind::Remove].map(|kind| places(&scenario.timed, kind));
    for places in &both {
        assert_eq!(places.iter().collect::<BTreeSet<_>>().len(), UNITS);
        assert_eq!(places.len(), UNITS);
    }
    both
}

#[test]
fn fillings_are_in_their_order() {
    assert!(filling("fill and empty rising").iter().all(|places| is_rising(places)));
    let mut falling = filling("fill and empty falling");
    falling.iter_mut().for_each(|places| places.reverse());
    assert!(falling.iter().all(|places| is_rising(places)));
    let [written, removed] = filling("fill and empty at random");
    let rises = |places: &[(u32, u32)]| places.windows(2).filter(|two| two[0] < two[1]).count();
    for places in [&written, &removed] {
        assert!((UNITS / 3..UNITS * 2 / 3).contains(&rises(places)));
    }
    assert_ne!(written, removed);
}

/// Twelve updates are above the base, and it is the base that answers.
#[test]
fn a_group_fetch_passes_twelve_updates() {
    const AT_THE_BASE: u32 = 11;
    let scenario = row("group fetch below 12 updates");
    for (request, answer) in scenario.timed.iter().zip(answers(&scenario)) {
        let words = request.words();
        let above = places(&scenario.setup, Kind::GroupWrite);
        let above = above.iter().filter(|(key, index)| *key == words[1] && *index < words[3]);
        assert_eq!((above.count(), head_kind(answer[0])), (12, AT_THE_BASE));
    }
}

/// The finalised updates have sixty tags, and each finalise answers sixty values, others than the
/// one before it.
#[test]
fn a_finalise_commits_sixty_tags() {
    let scenario = row("finalise of 60 tags");
    let finalised = places(&scenario.timed, Kind::Finalise);
    for request in &scenario.setup {
        if let Request::GroupWrite { key, index, values, .. } = request {
            assert!(values.len() == 60 || !finalised.contains(&(*key, *index)));
        }
    }
    let answers = answers(&scenario);
    assert!(answers.iter().all(|answer| head_count(answer[0]) == 2 + 60 * Value::WORDS));
    assert!(answers.windows(2).all(|two| two[0] != two[1]));
}

/// 15 of 16 units are held in each store, and only the two calls take part.
#[test]
fn a_scan_meets_both_stores() {
    let scan = row(rows::SCAN);
    let units = |request: &Request| match request {
        Request::GroupBase { values, .. } => 1 + 2 * values.len(),
        Request::GroupWrite { values, .. } => 1 + values.len(),
        _ => 1,
    };
    let (data, group): (Vec<&Request>, Vec<&Request>) =
        scan.setup.iter().partition(|request| request.kind() == Kind::Write);
    for requests in [data, group] {
        assert_eq!(requests.into_iter().map(units).sum::<usize>(), UNITS / 16 * 15);
    }
    let names = ["old, real", "old, stand-ins", "inner", "typed", "open"];
    assert_eq!(names.map(|name| scan.has(name)), [false, false, true, false, true]);
    assert!(names.iter().all(|name| row("fetch").has(name)));
}
