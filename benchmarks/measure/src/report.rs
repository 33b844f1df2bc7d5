//! The tables, in markdown, and every figure, as CSV.

use crate::{
    rounds::{Figures, Measured},
    rows::SCAN,
};
use request::{Kind, Request};
use std::fmt::Write;

/// Whose quotients the table has: the library's over the old product's.
const QUOTIENTS: [(&str, &str); 3] =
    [("inner", "old, real"), ("inner", "old, stand-ins"), ("typed", "old, real")];

/// Which round a figure is of.
type Share = fn(&Figures) -> f64;

/// ns an operation by contestant, the best of all rounds, and the quotients.
pub fn table(measured: &[&Measured]) -> String {
    let best: Share = Figures::best;
    let rows = measured.iter().filter(|m| m.row != SCAN).map(|m| (m.row, *m, best));
    by_contestant("ns, best of a hundred rounds", rows.collect())
}

/// How far apart the rounds of a row are.
pub fn spread(measured: &Measured) -> String {
    let shares: [(&str, Share); 3] =
        [("best", Figures::best), ("median", Figures::median), ("99 %", Figures::p99)];
    let rows = shares.map(|(name, share)| (name, measured, share)).to_vec();
    by_contestant(&format!("{}, ns, of all rounds", measured.row), rows)
}

fn by_contestant(corner: &str, rows: Vec<(&str, &Measured, Share)>) -> String {
    let Some((_, first, _)) = rows.first() else {
        return String::new();
    };
    let quotients: Vec<_> = QUOTIENTS
        .into_iter()
        .filter(|(new, old)| first.of(new).is_some() && first.of(old).is_some())
        .collect();
    let mut heads: Vec<String> = first.figures.iter().map(|f| f.name.to_string()).collect();
    heads.extend(quotients.iter().map(|(new, old)| format!("{new} / {old}")));
    let lines = rows.iter().map(|(name, measured, share)| {
        let mut cells: Vec<String> = measured.figures.iter().map(|f| ns(share(f))).collect();
        cells.extend(quotients.iter().map(|(new, old)| quotient(measured, new, old, *share)));
        (name.to_string(), cells)
    });
    markdown(corner, &heads, lines)
}

/// What the open call takes longer than the inner one, for each size.
pub fn scan(measured: &[Measured]) -> String {
    let scans: Vec<&Measured> = measured.iter().filter(|m| m.row == SCAN).collect();
    let heads: Vec<String> = scans.iter().map(|m| units(m.units)).collect();
    let shares: [(&str, Share); 2] = [("best", Figures::best), ("median", Figures::median)];
    let lines = shares.map(|(name, share)| {
        let cells = scans.iter().map(|m| match (m.of("open"), m.of("inner")) {
            (Some(open), Some(inner)) => ns(share(open) - share(inner)),
            _ => String::new(),
        });
        (name.to_string(), cells.collect())
    });
    markdown("ns, the open call's scan", &heads, lines.into_iter())
}

/// The library beside the old product for each size.
pub fn growth(measured: &[Measured]) -> String {
    let (mut rows, mut sizes): (Vec<&str>, Vec<usize>) = (vec![], vec![]);
    for m in measured.iter().filter(|m| m.row != SCAN) {
        if !rows.contains(&m.row) {
            rows.push(m.row);
        }
        if !sizes.contains(&m.units) {
            sizes.push(m.units);
        }
    }
    let old = match measured.iter().any(|m| m.best("old, real").is_some()) {
        true => "old, real",
        false => "old, stand-ins",
    };
    let heads: Vec<String> = sizes.iter().map(|size| units(*size)).collect();
    let lines = rows.iter().flat_map(|row| [old, "inner"].map(|name| (*row, name)));
    let lines = lines.map(|(row, name)| {
        let cells = sizes.iter().map(|units| {
            let at = measured.iter().find(|m| m.row == row && m.units == *units);
            at.and_then(|m| m.best(name)).map_or(String::new(), ns)
        });
        (format!("{row}: {name}"), cells.collect())
    });
    markdown("ns, best of a hundred rounds", &heads, lines)
}

/// How many requests a list has, and of which kinds.
pub fn mix(requests: &[Request]) -> String {
    let mut text = format!("{} requests", requests.len());
    for kind in Kind::all() {
        let count = requests.iter().filter(|request| request.kind() == kind).count();
        if count > 0 {
            let percent = 100.0 * count as f64 / requests.len() as f64;
            write!(text, ", {} {percent:.1} %", kind.name()).expect("a string takes all");
        }
    }
    text
}

pub fn csv(measured: &[Measured]) -> String {
    let mut text = String::from("row,units,contestant,best_ns,median_ns,rounds,p99_ns\n");
    for m in measured {
        for f in &m.figures {
            let (row, units, name) = (m.row, m.units, f.name);
            let (best, median, p99) = (f.best(), f.median(), f.p99());
            let rounds = f.rounds();
            writeln!(text, "{row},{units},\"{name}\",{best:.1},{median:.1},{rounds},{p99:.1}")
                .expect("a string takes all");
        }
    }
    text
}

fn markdown(
    corner: &str,
    heads: &[String],
    rows: impl Iterator<Item = (String, Vec<String>)>,
) -> String {
    let mut text = format!("| {corner} | {} |\n", heads.join(" | "));
    text += &format!("|---|{}\n", "---:|".repeat(heads.len()));
    for (name, cells) in rows {
        text += &format!("| {name} | {} |\n", cells.join(" | "));
    }
    text
}

fn units(count: usize) -> String {
    format!("{count} units")
}

fn quotient(measured: &Measured, new: &str, old: &str, share: Share) -> String {
    match (measured.of(new), measured.of(old)) {
        (Some(new), Some(old)) => format!("{:.2}", share(new) / share(old)),
        _ => String::new(),
    }
}

/// Whole ns, thousands apart.
fn ns(time: f64) -> String {
    let whole = time.round() as u64;
    match whole {
        0..=999 => whole.to_string(),
        _ => format!("{},{:03}", whole / 1000, whole % 1000),
    }
}
