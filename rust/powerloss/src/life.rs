//! One life of the unit: from power-up to the loss of power, or to the end of the season.

use crate::season::{self, Season};
use crate::system::{die, map};
use difftest::random::Random;
use std::fs::OpenOptions;
use std::path::Path;
use store::{Call, CutResult, Lent, State, Store};

/// Levels looked up after power-up.
const LOOKUPS: usize = 3;
/// A call that builds a set is cut before one of so many last steps.
const LAST_STEPS: u64 = 3;
/// What a restart answers where nothing was formatted.
const NO_VOLUME: u32 = 1;

/// Goes on with the season in the file until the steps are used up; then it dies. Comes back where the season is
/// done, or with what is wrong.
pub fn live(store: &dyn Store, file: &Path, seed: u64, steps: u64) -> Result<(), String> {
    let season = Season::new(seed);
    let file = OpenOptions::new().read(true).write(true).open(file);
    let bytes = file.and_then(|file| map(&file, season::unused().len()));
    let bytes = bytes.map_err(|error| error.to_string())?;
    let mut volume = season::lent(bytes);
    let mut left = steps;

    let unknown = State::default();
    let mut result = store.call(Some(left), unknown, &Call::Restart, &mut volume).cut();
    if result.refusal == NO_VOLUME && season::is_unused(&volume) {
        result = store
            .call(Some(left), unknown, &season.format(), &mut volume)
            .cut();
    }
    let mut state = finished(result, &mut left)?;
    let done = season
        .done(state)
        .ok_or_else(|| format!("no call of the season leaves {state:?}"))?;
    look_up(store, &season, &mut volume, done, steps)?;

    for (i, event) in season.events.iter().enumerate().skip(done) {
        if season.builds_set(i) {
            // Few steps are between the erase of L1 and the end, and most mistakes show there.
            let all = season::steps(store, state, &event.call, &volume);
            left = all.saturating_sub(1 + steps % LAST_STEPS);
        }
        let result = store.call(Some(left), state, &event.call, &mut volume).cut();
        state = finished(result, &mut left)?;
        if state != season.state_after(i + 1) {
            return Err(format!("call {i} leaves {state:?}"));
        }
    }
    Ok(())
}

/// The state after a call that had steps enough; the process dies of any other.
fn finished(result: CutResult, left: &mut u64) -> Result<State, String> {
    if result.refusal != 0 {
        return Err(format!("refused by {}", result.refusal));
    }
    if result.finished == 0 && result.steps == *left {
        die();
    }
    if result.finished == 0 || result.steps > *left {
        return Err(format!("{result:?} with a budget of {left}"));
    }
    *left -= result.steps;
    Ok(result.state)
}

/// A few levels have the values that the season gave them last.
fn look_up(
    store: &dyn Store,
    season: &Season,
    volume: &mut Lent,
    done: usize,
    steps: u64,
) -> Result<(), String> {
    let mut random = Random::new(steps ^ done as u64);
    for _ in 0..LOOKUPS {
        let key = random.pick(&season.keys);
        let values = season::values(store, season.state_after(done), key, volume);
        if values != Ok(season.values(done, key)) {
            return Err(format!("level {key} after {done} calls: {values:?}"));
        }
    }
    Ok(())
}
