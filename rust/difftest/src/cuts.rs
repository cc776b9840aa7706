//! Cuts and restarts, request 8: now and then in the histories of other scenarios, and each cut of chosen calls.

use crate::damage::damage;
use crate::loads;
use crate::pair::{Difference, Moment};
use crate::random::Random;
use crate::scenarios::{format, Scenario, Test};
use crate::tabs::Row;
use crate::wild::{wild_number, wild_state};
use store::{Answer, Call, State};

/// Of the header: the pending call's kind, and the first of its arguments.
const KIND: usize = 6;
const ARGUMENTS: usize = 7;

/// A call; now and then it is cut and, unless it is refused, finished by restarts.
pub(crate) fn call(test: &mut Test, call: Call) -> Result<Answer, Difference> {
    if !call.has_steps() || !test.random.chance(1, 10) {
        return test.pair.call(call);
    }
    let budget = some_budget(&mut test.random);
    let answer = test.pair.call_cut(budget, call)?;
    match answer.is_cut() {
        // Before the intent: nothing is left to restart.
        true if budget == 0 => test.pair.call(call),
        true => finish(test),
        false => Ok(answer),
    }
}

/// Most calls have two steps, one that fills a page six and more, one that builds a set a hundred and more. Some budgets are enough for
/// any, also where they are cut to 32 bits.
fn some_budget(random: &mut Random) -> u64 {
    match random.pick(&[2, 3, 7, 16, 150, 1500, 0]) {
        0 => random.pick(&[1 << 32, (1 << 32) + 1, u64::MAX]),
        bound => random.below(bound) as u64,
    }
}

/// Restarts a pending call: calls that are refused by 10, restarts that are cut as well, a whole one. Where that is refused too,
/// for altered bytes, the intent is cleared.
pub(crate) fn finish(test: &mut Test) -> Result<Answer, Difference> {
    let handed_in = test.pair.state;
    for _ in 0..test.random.below(4) {
        if let (Some(geometry), true) = (test.damaged, test.random.chance(1, 3)) {
            damage(test, geometry);
        }
        if test.random.chance(1, 3) {
            let key = test.random.below_u32(100);
            // 10 comes before 9.
            let tab: &[u8] = test
                .random
                .pick(&["level,moves,goal\n1,2,3\n", "no header", ""])
                .as_bytes();
            let refused = test.random.pick(&[
                Call::Lookup { key },
                Call::Delete { key },
                Call::Insert {
                    key,
                    moves: 1,
                    goal: 2,
                    word: 3,
                },
                Call::Load { tab },
            ]);
            test.pair.call(refused)?;
            continue;
        }
        let budget = some_budget(&mut test.random);
        test.pair.state = any_state(&mut test.random, handed_in);
        let answer = test.pair.call_cut(budget, Call::Restart)?;
        if answer.accepted() {
            return Ok(answer);
        }
        test.pair.state = handed_in;
    }
    test.pair.state = any_state(&mut test.random, handed_in);
    let answer = test.pair.call(Call::Restart)?;
    if !answer.accepted() {
        test.pair.state = handed_in;
        test.pair.write_header(KIND, 0);
    }
    Ok(answer)
}

/// A restart goes by the header's state, whichever it is handed.
fn any_state(random: &mut Random, state: State) -> State {
    match random.below(4) {
        0 => State::default(),
        1 => wild_state(random),
        _ => state,
    }
}

/// A restart of a header with this state and any pending call, or none; the intent is cleared after it.
pub(crate) fn restart_of(test: &mut Test, state: State) -> Result<(), Difference> {
    let numbers = state.numbers();
    for (i, number) in numbers.into_iter().enumerate() {
        test.pair.write_header(i, number);
    }
    let random = &mut test.random;
    let kind = match random.below(8) {
        0 => 0,
        1 => wild_number(random),
        _ => 1 + random.below_u32(5),
    };
    test.pair.write_header(KIND, kind);
    for (i, number) in numbers.into_iter().enumerate() {
        // Those of a format, or a key.
        let number = match random.below(4) {
            0 => random.below_u32(20),
            1 => wild_number(random),
            _ => number,
        };
        test.pair.write_header(ARGUMENTS + i, number);
    }
    let handed_in = test.pair.state;
    test.pair.state = any_state(random, handed_in);
    let budget = some_budget(random);
    match random.below(2) {
        0 => test.pair.call(Call::Restart)?,
        _ => test.pair.call_cut(budget, Call::Restart)?,
    };
    test.pair.write_header(KIND, 0);
    Ok(())
}

/// Seasons at S = 16 whose calls are cut everywhere. Pages have 4 records, 8 entries and 16 deletions; a round of filters has 1024
/// entries or deletions, and four rounds fill a set.
pub fn all() -> Vec<Scenario> {
    type Run = fn(&mut Test) -> Result<(), Difference>;
    let runs: [(&str, Run); 6] = [
        ("cuts-pages", pages),
        ("cuts-entries", entries),
        ("cuts-deletions", deletions),
        ("cuts-both", both),
        ("cuts-season", season),
        ("cuts-rows", rows),
    ];
    runs.into_iter()
        .map(|(name, run)| Scenario::new(name.into(), false, run))
        .collect()
}

/// Up to so many steps each cut is restarted with every budget. Calls with more of them build a set larger than set 3, or sets of both
/// indexes.
const FEW_STEPS: u64 = 160;

/// The call uncut, and then cut after each number of its steps and restarted, with every budget or some, and finished: "the desk, cells,
/// marks and state in the end equal those of the call uncut; a cut before the intent leaves what was there".
fn every_cut(test: &mut Test, call: Call) -> Result<(), Difference> {
    let unchanged = test.pair.moment();
    if let Call::Format { .. } = call {
        // It does not judge the state, nor store it.
        test.pair.state = wild_state(&mut test.random);
    }
    let before = test.pair.moment();
    let answer = test.pair.call(call)?;
    let whole = test.pair.moment();
    if !answer.accepted() {
        return Err(failed(test, call, "accepted", answer));
    }
    each_cut(test, call, &before, [&unchanged, &whole])?;
    test.pair.back_to(&whole);
    Ok(())
}

/// From the moment before a call: each of its cuts, restarted and finished. The ends: of a cut before the intent, and of every other.
fn each_cut(
    test: &mut Test,
    call: Call,
    before: &Moment,
    [unchanged, whole]: [&Moment; 2],
) -> Result<(), Difference> {
    let steps = count_steps(test, call, before)?;
    let offset = test.random.below(steps as usize) as u64;
    for budget in 0..steps {
        test.pair.back_to(before);
        let answer = test.pair.call_cut(budget, call)?;
        if !answer.is_cut() {
            return Err(failed(test, call, "cut", answer));
        }
        let cut = test.pair.moment();
        // Nothing was pending before: a cut before the intent changes nothing.
        let end = if budget == 0 { unchanged } else { whole };
        if steps <= FEW_STEPS {
            let mut again = 0;
            while restarted(test, again, &cut, end)? {
                again += 1;
            }
        } else {
            // Each number of steps is the budget of one of these restarts.
            restarted(test, (89 * budget + offset) % steps, &cut, end)?;
            restarted(test, 1, &cut, end)?;
        }
    }
    Ok(())
}

/// The steps of an accepted call: with one less it is cut.
fn count_steps(test: &mut Test, call: Call, before: &Moment) -> Result<u64, Difference> {
    test.pair.back_to(before);
    match test.pair.call_cut(u64::MAX, call)? {
        Answer::Cut(result) if result.finished == 1 => Ok(result.steps),
        answer => Err(failed(test, call, "finished", answer)),
    }
}

/// From the moment of a cut: a restart with this budget and, if it is cut too, a whole one. Was it cut?
fn restarted(test: &mut Test, budget: u64, cut: &Moment, end: &Moment) -> Result<bool, Difference> {
    test.pair.back_to(cut);
    test.pair.state = any_state(&mut test.random, cut.state);
    let handed_in = test.pair.state;
    let was_cut = test.pair.call_cut(budget, Call::Restart)?.is_cut();
    if was_cut {
        test.pair.state = any_state(&mut test.random, cut.state);
        test.pair.call(Call::Restart)?;
    }
    match test.pair.changed_since(end) {
        None => Ok(was_cut),
        Some(what) => {
            let what = format!("after a restart with a budget of {budget}, not as uncut: {what}");
            Err(test.pair.difference(Call::Restart, handed_in, what))
        }
    }
}

fn failed(test: &Test, call: Call, expected: &str, got: Answer) -> Difference {
    let what = format!("expected to be {expected}\n  got      {got:?}");
    test.pair.difference(call, test.pair.state, what)
}

fn insert(key: u32) -> Call<'static> {
    Call::Insert {
        key,
        moves: key + 1,
        goal: 2,
        word: 3,
    }
}

fn update(key: u32) -> Call<'static> {
    Call::Update {
        key,
        moves: key + 4,
        goal: 5,
        word: 6,
    }
}

/// A fresh volume with k = 1.
fn formatted(test: &mut Test, r: u32, d: u32) -> Result<(), Difference> {
    format(test, 16, r, d)?;
    test.pair.call(format_of(r, d, 1))?;
    Ok(())
}

fn format_of(ra_blocks: u32, da_blocks: u32, hash_count: u32) -> Call<'static> {
    Call::Format {
        sector_size: 16,
        ra_blocks,
        da_blocks,
        hash_count,
    }
}

/// Formats, and every call of a season that fills pages and flushes filters of both indexes.
fn pages(test: &mut Test) -> Result<(), Difference> {
    format(test, 16, 3, 1)?;
    every_cut(test, format_of(3, 1, 1))?;
    for key in 0..66 {
        every_cut(test, insert(key))?;
    }
    for key in 0..60 {
        every_cut(test, update(key))?;
    }
    // An update of an absent level, and deletions up to a flush of their filters.
    every_cut(test, update(1000))?;
    for key in 60..66 {
        every_cut(test, Call::Delete { key })?;
    }
    every_cut(test, format_of(1, 1, 8))
}

/// Inserts: sets 2 to 4, a full one, and set 2 of the next cycle.
fn entries(test: &mut Test) -> Result<(), Difference> {
    formatted(test, 80, 1)?;
    for key in 0..5 * 1024 {
        match key % 1024 {
            1023 => every_cut(test, insert(key))?,
            _ => drop(test.pair.call(insert(key))?),
        }
    }
    Ok(())
}

/// Updates of three levels: the same sets over deletions. Every other one is built by a delete.
fn deletions(test: &mut Test) -> Result<(), Difference> {
    formatted(test, 82, 20)?;
    for key in 0..3 {
        test.pair.call(insert(key))?;
    }
    for number in 0..5 * 1024 {
        let key = number % 3;
        match (number % 1024, number / 1024 % 2) {
            (1023, 0) => every_cut(test, update(key))?,
            (1023, _) => {
                every_cut(test, Call::Delete { key })?;
                test.pair.call(insert(key))?;
            }
            _ => drop(test.pair.call(update(key))?),
        }
    }
    Ok(())
}

/// One update that builds set 3 over entries and set 2 over deletions.
fn both(test: &mut Test) -> Result<(), Difference> {
    formatted(test, 33, 4)?;
    for key in 0..1024 {
        test.pair.call(insert(key))?;
    }
    for key in 0..1023 {
        test.pair.call(update(key))?;
    }
    every_cut(test, update(1023))
}

/// Filters of a round, in records or in deletions.
const ROUND: u32 = 1024;
/// Levels of the season: few, so that almost every call deletes.
const LEVELS: u32 = 24;

/// Every call of a season with k = 3 that builds sets 2 and 3 of both indexes and flushes once more behind them.
fn season(test: &mut Test) -> Result<(), Difference> {
    format(test, 16, 34, 9)?;
    test.pair.call(format_of(34, 9, 3))?;
    let mut live = [false; LEVELS as usize];
    while test.pair.state.deletions < 2 * ROUND + 64 {
        let key = test.random.below_u32(LEVELS);
        let is_live = &mut live[key as usize];
        let call = match (*is_live, test.random.chance(1, 8)) {
            (true, true) => Call::Delete { key },
            (false, true) => insert(key),
            (_, false) => update(key),
        };
        *is_live = !matches!(call, Call::Delete { .. });
        every_cut(test, call)?;
    }
    Ok(())
}

/// Rows of the tab, and its levels: those of a page of deletions and more come twice.
const ROWS: usize = 140;
const ROW_LEVELS: u32 = 100;

/// The rows of a load, each cut: "of a call made of several, as a load, each is cut and finished by itself". There is no load with a
/// budget: the rows before are loaded, the row's own call is cut, and in the end every byte is that of a load up to the row.
fn rows(test: &mut Test) -> Result<(), Difference> {
    format(test, 16, 3, 1)?;
    test.pair.call(format_of(3, 1, 3))?;
    let fresh = test.pair.moment();
    let rows: Vec<Row> = (0..ROWS)
        .map(|_| {
            let random = &mut test.random;
            [random.below_u32(ROW_LEVELS), random.next_u32(), random.next_u32()]
        })
        .collect();
    let mut before = loaded(test, &fresh, &[])?;
    for (i, &[key, moves, goal]) in rows.iter().enumerate() {
        let after = loaded(test, &fresh, &rows[..=i])?;
        let word = 0;
        let call = if rows[..i].iter().any(|row| row[0] == key) {
            Call::Update {
                key,
                moves,
                goal,
                word,
            }
        } else {
            Call::Insert {
                key,
                moves,
                goal,
                word,
            }
        };
        each_cut(test, call, &before, [&before, &after])?;
        before = after;
    }
    Ok(())
}

/// The moment after a load of these rows into the fresh volume.
fn loaded(test: &mut Test, fresh: &Moment, rows: &[Row]) -> Result<Moment, Difference> {
    test.pair.back_to(fresh);
    loads::load(test, &loads::tab_of(rows.iter().copied()), rows.len() as u32, 0)?;
    Ok(test.pair.moment())
}
