//! The tables, of known times: nothing is measured here.

use measure::{
    report,
    rounds::{Figures, Measured},
    rows::{FETCH, SCAN},
};

/// A thousand rounds of so many ns and a tenth more each.
fn rounds(name: &'static str, from: u32) -> Figures {
    let times = (0..1000).rev().map(|n| f64::from(from) * (1.0 + 0.1 * f64::from(n)));
    Figures { name, times: times.collect() }
}

fn measured(row: &'static str, units: usize, figures: Vec<Figures>) -> Measured {
    Measured { row, units, figures }
}

fn fetch() -> Measured {
    measured(FETCH, 512, vec![rounds("old, stand-ins", 10), rounds("inner", 20)])
}

fn scan(units: usize, open: u32) -> Measured {
    measured(SCAN, units, vec![rounds("inner", 20), rounds("open", open)])
}

#[test]
fn the_spread_of_a_row() {
    let table = "\
| fetch, ns, of all rounds | old, stand-ins | inner | inner / old, stand-ins |
|---|---:|---:|---:|
| best | 20 | 40 | 2.00 |
| median | 510 | 1,020 | 2.00 |
| 99 % | 1,000 | 2,000 | 2.00 |
";
    assert_eq!(report::spread(&fetch()), table);
}

#[test]
fn a_scan_is_open_less_inner() {
    let table = "\
| ns, the open call's scan | 16 units | 512 units |
|---|---:|---:|
| best | 60 | 360 |
| median | 1,530 | 9,180 |
";
    assert_eq!(report::scan(&[scan(16, 50), fetch(), scan(512, 200)]), table);
}

/// It is no row of the other tables, which have the old product's column.
#[test]
fn a_scan_has_its_own_table() {
    let all = [fetch(), scan(512, 200)];
    assert!(!report::table(&all.iter().collect::<Vec<_>>()).contains(SCAN));
    assert!(!report::growth(&all).contains(SCAN));
}

#[test]
fn every_figure_is_in_the_csv() {
    let csv = "\
row,units,contestant,best_ns,median_ns,rounds,p99_ns
fetch,512,\"old, stand-ins\",20.0,510.0,1000,1000.0
fetch,512,\"inner\",40.0,1020.0,1000,2000.0
scan,16,\"inner\",40.0,1020.0,1000,2000.0
scan,16,\"open\",100.0,2550.0,1000,5000.0
";
    assert_eq!(report::csv(&[fetch(), scan(16, 50)]), csv);
}
