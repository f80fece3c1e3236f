//! Random histories without a difference, and what they reach.

use std::cmp::Reverse;
use std::collections::BTreeSet;

use comparison::histories::{run, Grid};
use reference::call::Entry;

fn answers(grid: &Grid) -> BTreeSet<i32> {
    grid.keys().map(|(Reverse(answer), _)| *answer).collect()
}

#[test]
fn every_entry_point_is_run_and_refused() {
    let counts = run(10_000, 3).unwrap_or_else(|text| panic!("{text}"));
    assert!(counts.calls >= 10_000);
    for entry in Entry::ALL {
        let has = |grid: &Grid| grid.keys().any(|(_, other)| *other == entry);
        assert!(has(&counts.run) && has(&counts.refused), "{entry:?}");
    }
    let refusals = answers(&counts.refused);
    assert!(refusals.is_superset(&[-2, -4, -12].into()), "{refusals:?}");
    assert!(answers(&counts.run).is_superset(&(-9..=0).collect()));
    assert!(counts.fewer_outcomes > 100 && counts.shorter_logs > 50);
}

#[cfg(have_original)]
#[test]
fn stops_damaged_stores_and_cuts_are_reached() {
    use reference::outside::Outside;
    let counts = run(20_000, 4).unwrap_or_else(|text| panic!("{text}"));
    assert!(answers(&counts.run).is_superset(&(-15..=-13).collect()));
    assert!(answers(&counts.refused).contains(&-16));
    assert!(counts.full_bus > 20, "{}", counts.full_bus);
    for case in [
        Outside::StoredEnum,
        Outside::HubDescriptorLength,
        Outside::BusFull,
        Outside::ScanWithoutHubData,
        Outside::PowerWithoutDescriptor,
        Outside::ClearSuspend,
        Outside::ClearResetChange,
    ] {
        let is_reached = counts.outside.keys().any(|(other, _)| *other == case);
        assert!(is_reached, "{case:?}");
    }
}
