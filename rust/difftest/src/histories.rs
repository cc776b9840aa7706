//! Histories from a format to capacity, nothing altered.

use crate::mixes::{call_some, Keys, MANY_DELETES, MANY_INSERTS, MANY_UPDATES, MOSTLY_UPDATES};
use crate::pair::Difference;
use crate::scenarios::{format, geometry, Scenario, Test};
use store::State;

/// Of pages, of sets and full sets, and of deletions, whose own sets came with request 5.
pub fn all() -> Vec<Scenario> {
    let mut list = Vec::new();
    let mut add = |scenario: Scenario| list.push(scenario);
    // Pages.
    for (s, r, d, long) in [
        (16, 1, 1, false),
        (16, 6, 1, false),
        (16, 12, 1, false),
        (32, 1, 1, false),
        (32, 5, 2, false),
        (32, 10, 1, false),
        (64, 1, 1, false),
        (64, 3, 1, false),
        (128, 1, 1, false),
        (128, 2, 1, false),
        (256, 1, 1, false),
        (512, 1, 1, false),
        (256, 3, 1, true),
        (512, 3, 1, true),
    ] {
        add(Scenario::new(format!("history-{s}-{r}-{d}"), long, move |test| {
            history(test, s, r, d)
        }));
    }
    // The same with sets.
    for (s, r, d, long) in [
        (16, 20, 1, false),
        (16, 45, 3, false),
        (32, 40, 2, false),
        (64, 17, 1, false),
        (64, 50, 3, true),
        (128, 17, 1, true),
        (256, 17, 1, true),
        (512, 17, 1, true),
    ] {
        add(Scenario::new(format!("sets-{s}-{r}-{d}"), long, move |test| {
            history(test, s, r, d)
        }));
    }
    // And with full sets.
    for (s, r, d, long) in [
        (16, 70, 4, false),
        (16, 150, 10, false),
        (32, 132, 5, false),
        (64, 260, 8, true),
    ] {
        add(Scenario::new(
            format!("full-sets-{s}-{r}-{d}"),
            long,
            move |test| history(test, s, r, d),
        ));
    }
    // Histories of few levels, whose deletions fill pages, sets and full sets of their own.
    for (s, r, d, long) in [
        (16, 3, 2, false),
        (16, 24, 5, false),
        (16, 90, 21, false),
        (32, 40, 9, false),
        (64, 4, 1, false),
        (64, 20, 5, true),
        (32, 140, 33, true),
        (128, 20, 5, true),
        (512, 4, 1, true),
    ] {
        add(Scenario::new(
            format!("deletions-{s}-{r}-{d}"),
            long,
            move |test| deletions(test, s, r, d),
        ));
    }
    list
}

/// From a format to capacity and some calls beyond.
fn history(test: &mut Test, s: u32, r: u32, d: u32) -> Result<(), Difference> {
    let geometry = geometry(s, r, d);
    format(test, s, r, d)?;
    let mix = test.random.pick(&[MANY_INSERTS, MANY_UPDATES, MANY_DELETES]);
    let capacity = geometry.record_capacity();
    let mut keys = Keys::below(2 * capacity as u32);
    let mut calls = 0;
    while (test.pair.state.records as usize) < capacity && calls < 4 * capacity {
        // Once deletions are full, inserts go on.
        let deletions_full = test.pair.state.deletions as usize == geometry.deletion_capacity();
        let mix = if deletions_full { MANY_INSERTS } else { mix };
        call_some(test, mix, &mut keys)?;
        calls += 1;
    }
    for _ in 0..100 {
        call_some(test, MANY_DELETES, &mut keys)?;
    }
    Ok(())
}

/// From a format until records or deletions are full, and some calls beyond. There are few levels, so that most changes delete.
fn deletions(test: &mut Test, s: u32, r: u32, d: u32) -> Result<(), Difference> {
    let geometry = geometry(s, r, d);
    format(test, s, r, d)?;
    let mut keys = Keys::below(20 + test.random.below_u32(geometry.deletions_per_page() as u32));
    let full = |state: State| {
        state.records as usize == geometry.record_capacity()
            || state.deletions as usize == geometry.deletion_capacity()
    };
    while !full(test.pair.state) {
        call_some(test, MOSTLY_UPDATES, &mut keys)?;
    }
    for _ in 0..100 {
        call_some(test, MANY_DELETES, &mut keys)?;
    }
    Ok(())
}
