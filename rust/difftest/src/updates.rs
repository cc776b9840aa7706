//! Scenarios of updates of levels that are not there, request 4: "n rises by one, d stays", "5 and 7 apply, and 6
//! does not".

use crate::pair::Difference;
use crate::scenarios::{format, Scenario, Test};
use store::Call;

/// All of them, at S = 16: pages of 4 records, 8 entries and 16 deletions.
pub fn all() -> Vec<Scenario> {
    type Run = fn(&mut Test) -> Result<(), Difference>;
    let runs: [(&str, Run); 5] = [
        ("update-absent-16-full", records_full),
        ("update-absent-16-deletions-full", deletions_full),
        ("update-absent-16-not-fresh", not_fresh),
        ("update-absent-16-wrong-number", wrong_record_number),
        ("update-absent-16-deletions-page", deletions_page),
    ];
    runs.into_iter()
        .map(|(name, run)| Scenario::new(name.into(), false, run))
        .collect()
}

/// The call on both sides, which must be answered by this refusal and leave these counts.
fn expect(test: &mut Test, call: Call, refusal: u32, counts: (u32, u32)) -> Result<(), Difference> {
    let handed_in = test.pair.state;
    let answer = test.pair.call(call)?;
    let state = test.pair.state;
    if answer.refusal() == refusal && (state.records, state.deletions) == counts {
        return Ok(());
    }
    let what = format!("expected refusal {refusal}, n and d {counts:?}\n  got      {answer:?}");
    Err(test.pair.difference(call, handed_in, what))
}

fn update(key: u32) -> Call<'static> {
    Call::Update {
        key,
        moves: 30 + key,
        goal: 1,
        word: 2,
    }
}

/// Updates of the absent levels from one on, and a lookup of each.
fn update_new(test: &mut Test, first: u32, count: u32) -> Result<(), Difference> {
    let before = test.pair.state;
    for i in 0..count {
        expect(
            test,
            update(first + i),
            0,
            (before.records + i + 1, before.deletions),
        )?;
        test.pair.call(Call::Lookup { key: first + i })?;
    }
    Ok(())
}

/// A volume filled by updates alone; then 5, for a live level too.
fn records_full(test: &mut Test) -> Result<(), Difference> {
    format(test, 16, 1, 1)?;
    update_new(test, 100, 64)?;
    for key in [7, 100, 163] {
        expect(test, update(key), 5, (64, 0))?;
    }
    expect(test, Call::Delete { key: 100 }, 0, (64, 1))?;
    expect(test, update(100), 5, (64, 1))
}

/// With no deletion left a live level is refused by 6 and an absent one, deleted or new, is not; 5 comes before 6.
fn deletions_full(test: &mut Test) -> Result<(), Difference> {
    format(test, 16, 5, 1)?;
    update_new(test, 7, 2)?;
    for i in 0..255 {
        expect(test, update(7), 0, (3 + i, 1 + i))?;
    }
    expect(test, Call::Delete { key: 8 }, 0, (257, 256))?;
    expect(test, update(7), 6, (257, 256))?;
    expect(test, update(8), 0, (258, 256))?;
    expect(test, update(8), 6, (258, 256))?;
    update_new(test, 1000, 62)?;
    expect(test, update(7), 5, (320, 256))?;
    expect(test, update(9), 5, (320, 256))
}

/// A spoiled mark of the page of records that it fills, then of the page of entries.
fn not_fresh(test: &mut Test) -> Result<(), Difference> {
    for (sector, filled) in [(0, 3), (3, 3), (64, 7), (67, 7)] {
        format(test, 16, 1, 1)?;
        test.pair.write_spare(sector, &[0x00]);
        update_new(test, 100, filled)?;
        expect(test, update(7), 7, (filled, 0))?;
        test.pair.write_spare(sector, &[0xFF]);
        update_new(test, 7, 1)?;
    }
    // A mark of the deletions' page is nothing to it.
    format(test, 16, 1, 1)?;
    update_new(test, 7, 1)?;
    for i in 0..15 {
        expect(test, update(7), 0, (2 + i, 1 + i))?;
    }
    test.pair.write_spare(2 * 64, &[0x00]);
    expect(test, update(7), 7, (16, 15))?;
    update_new(test, 8, 1)
}

/// An entry of its level with a record number of n or more, in RAM and on flash.
fn wrong_record_number(test: &mut Test) -> Result<(), Difference> {
    for (count, place) in [(2, 64 + 8), (10, 1024 + 8)] {
        format(test, 16, 1, 1)?;
        update_new(test, 100, count)?;
        expect(test, Call::Delete { key: 101 }, 0, (count, 1))?;
        match count {
            2 => test.pair.write_ram(place + 4, &[99]),
            _ => test.pair.write_data(place + 4, &[99]),
        }
        expect(test, update(101), 8, (count, 1))?;
        update_new(test, 7, 1)?;
    }
    Ok(())
}

/// With fifteen deletions in RAM: the next one fills their page, an absent level's update writes none.
fn deletions_page(test: &mut Test) -> Result<(), Difference> {
    for absent in 0..6 {
        format(test, 16, 1, 1)?;
        update_new(test, 7, 1)?;
        for i in 0..15 {
            expect(test, update(7), 0, (2 + i, 1 + i))?;
        }
        update_new(test, 1000, absent)?;
        expect(test, update(7), 0, (17 + absent, 16))?;
        update_new(test, 2000, absent)?;
        expect(test, update(7), 0, (18 + 2 * absent, 17))?;
    }
    Ok(())
}
