//! `powerloss [--store NAME] [--seasons N]`: a unit that loses its power again and again, and one that never does.
//!
//! Main area, spare area and RAM lie in a file that a child process maps. The child restarts, finds its place in the season by n
//! and d, makes calls, and kills itself when the steps of its life are used up, in the middle of a call or of a restart; then
//! the next one begins. In the end the file has to equal, byte for byte, the memory of a season that was never cut; and units must have
//! died, in calls and in restarts.

mod life;
mod season;
mod system;

use difftest::random::Random;
use season::{pending_header, unused, Season};
use std::os::unix::process::ExitStatusExt;
use std::path::Path;
use std::process::{Command, ExitCode};
use std::{env, fs, process};
use store::{State, Store};

const USAGE: &str = "usage: powerloss [--store NAME] [--seasons N]
The store is proved with the feature proved, otherwise the model; --store names another (fast).";

const SUBJECT: &str = if cfg!(feature = "proved") {
    "proved"
} else {
    "model"
};

const SEASONS: u64 = 6;
/// A season that is not done by then makes no progress.
const MOST_LIVES: usize = 100_000;
/// Life of a child: NAME FILE SEED STEPS.
const LIFE: &str = "--life";

/// What happened to the units.
#[derive(Default)]
struct Tally {
    calls: usize,
    deaths: usize,
    /// Deaths that left a call pending, and those of them that came in its restart.
    pending: usize,
    again: usize,
}

fn main() -> ExitCode {
    let words: Vec<String> = env::args().skip(1).collect();
    let words: Vec<&str> = words.iter().map(String::as_str).collect();
    if let [LIFE, name, file, seed, steps] = words[..] {
        return one_life(name, Path::new(file), seed, steps);
    }
    let (name, seasons) = match words[..] {
        [] => (SUBJECT, Some(SEASONS)),
        ["--store", name] => (name, Some(SEASONS)),
        ["--seasons", number] => (SUBJECT, number.parse().ok()),
        ["--store", name, "--seasons", number] => (name, number.parse().ok()),
        _ => (SUBJECT, None),
    };
    let (Some(store), Some(seasons)) = (store::by_name(name), seasons) else {
        eprintln!("{USAGE}");
        return ExitCode::from(2);
    };
    let mut tally = Tally::default();
    for seed in 0..seasons {
        if let Err(problem) = play(&*store, seed, &mut tally) {
            eprintln!("powerloss: store {name}, season {seed}: {problem}");
            return ExitCode::FAILURE;
        }
    }
    // Without these the seasons show nothing.
    if tally.deaths == 0 || tally.pending == 0 || tally.again == 0 {
        eprintln!(
            "powerloss: store {name}: {} deaths, {} with a call pending, {} of these in a restart: each must occur",
            tally.deaths, tally.pending, tally.again
        );
        return ExitCode::FAILURE;
    }
    println!(
        "powerloss: store {name}: {seasons} seasons of {} calls, {} deaths, {} with a call pending, {} of these in a restart; \
         every byte as without them",
        tally.calls, tally.deaths, tally.pending, tally.again
    );
    ExitCode::SUCCESS
}

fn one_life(name: &str, file: &Path, seed: &str, steps: &str) -> ExitCode {
    let (Some(store), Ok(seed), Ok(steps)) = (store::by_name(name), seed.parse(), steps.parse()) else {
        return ExitCode::from(2);
    };
    match life::live(&*store, file, seed, steps) {
        Ok(()) => ExitCode::SUCCESS,
        Err(problem) => {
            eprintln!("powerloss: {problem}");
            ExitCode::FAILURE
        }
    }
}

/// A season in a file against one in memory.
fn play(store: &dyn Store, seed: u64, tally: &mut Tally) -> Result<(), String> {
    let file = env::temp_dir().join(format!("powerloss-{}-{seed}", process::id()));
    let told = |error: std::io::Error| format!("{}: {error}", file.display());
    fs::write(&file, unused()).map_err(told)?;
    let end = lives(store.name(), &file, seed, tally).and_then(|()| fs::read(&file).map_err(told));
    fs::remove_file(&file).map_err(told)?;
    let season = Season::new(seed);
    tally.calls += season.events.len();
    if end? != uncut(store, &season)? {
        return Err("the end differs from that of a season without a loss of power".to_string());
    }
    Ok(())
}

/// Child after child, until one comes to the end of the season.
fn lives(name: &str, file: &Path, seed: u64, tally: &mut Tally) -> Result<(), String> {
    let program = env::current_exe().map_err(|error| error.to_string())?;
    let mut random = Random::new(seed ^ 0x1DE5);
    let mut last = None;
    for _ in 0..MOST_LIVES {
        // Short lives are the rule; some are long enough for a format.
        let longest = if random.chance(1, 8) { 11 } else { 7 };
        let bits = random.below(longest);
        let steps = random.below(1 << bits);
        let mut child = Command::new(&program);
        child.args([LIFE, name]).arg(file);
        child.args([seed.to_string(), steps.to_string()]);
        let status = child.status().map_err(|error| error.to_string())?;
        if status.success() {
            return Ok(());
        }
        if !system::was_killed(status.signal()) {
            return Err(format!("{status}"));
        }
        let bytes = fs::read(file).map_err(|error| error.to_string())?;
        tally.deaths += 1;
        // A finished call has left another state: the same header is that of the same pending call.
        let pending = pending_header(&bytes);
        tally.pending += usize::from(pending.is_some());
        tally.again += usize::from(pending.is_some() && pending == last);
        last = pending;
    }
    Err("no end".to_string())
}

/// The bytes of a season in memory.
fn uncut(store: &dyn Store, season: &Season) -> Result<Vec<u8>, String> {
    let mut bytes = unused();
    let mut volume = season::lent(&mut bytes);
    let mut change = store
        .call(None, State::default(), &season.format(), &mut volume)
        .change();
    for event in &season.events {
        if change.refusal != 0 {
            break;
        }
        change = store.call(None, change.state, &event.call, &mut volume).change();
    }
    match change.refusal {
        0 => Ok(bytes),
        number => Err(format!("refused by {number} without a loss of power")),
    }
}
