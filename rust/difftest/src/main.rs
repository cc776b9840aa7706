//! `difftest [--store NAME] [--long] [--seconds N] [--only NAME] [--round N]`: a store against the model.

use difftest::counts::Counts;
use difftest::scenarios;
use std::env;
use std::process::ExitCode;
use std::time::{Duration, Instant};
use store::ModelStore;

const USAGE: &str = "usage: difftest [--store NAME] [--long] [--seconds N] [--only NAME] [--round N]
The store is proved with the feature proved, otherwise the model itself; --store names another (fast).
Round 0 runs every scenario; more rounds, with other seeds, follow until the time is over
(120 seconds, with --long 1800 and more scenarios). --only takes the scenarios whose name
begins with NAME; --round starts with that round.";

const SUBJECT: &str = if cfg!(feature = "proved") {
    "proved"
} else {
    "model"
};

fn main() -> ExitCode {
    let mut name = SUBJECT.to_string();
    let mut long = false;
    let mut seconds = None;
    let mut only = String::new();
    let mut round = 0;
    let mut arguments = env::args().skip(1);
    while let Some(argument) = arguments.next() {
        let mut number = || arguments.next().and_then(|text| text.parse::<u64>().ok());
        match argument.as_str() {
            "--store" => match arguments.next() {
                Some(value) => name = value,
                None => return usage("--store needs a name"),
            },
            "--long" => long = true,
            "--seconds" => match number() {
                Some(value) => seconds = Some(value),
                None => return usage("--seconds needs a number"),
            },
            "--round" => match number() {
                Some(value) => round = value,
                None => return usage("--round needs a number"),
            },
            "--only" => match arguments.next() {
                Some(name) => only = name,
                None => return usage("--only needs a name"),
            },
            other => return usage(&format!("unknown option {other}")),
        }
    }
    let limit = Duration::from_secs(seconds.unwrap_or(if long { 1800 } else { 120 }));
    let mut list: Vec<_> = scenarios::all()
        .into_iter()
        .filter(|scenario| (long || !scenario.long) && scenario.name.starts_with(&only))
        .collect();
    if list.is_empty() {
        return usage(&format!("no scenario {only}"));
    }

    let Some(subject) = store::by_name(&name) else {
        return usage(&format!("no store {name}"));
    };
    println!("store {name} against store model");
    if name == "model" {
        println!("(the feature proved is off: the model is compared with itself)");
    }
    let start = Instant::now();
    let first_round = round;
    let scenarios = list.len();
    let mut total = Counts::default();
    let mut runs = 0;
    'rounds: loop {
        for scenario in &list {
            // The first round is always made whole.
            if round > first_round && start.elapsed() >= limit {
                break 'rounds;
            }
            let scenario_start = Instant::now();
            match scenario.run(&ModelStore, &*subject, round) {
                Ok(counts) => {
                    if round == first_round {
                        println!(
                            "{:20} {:7} calls, {:6} cut, {:7} rows, {:3} sets, {:3} over deletions, {:6.2} s",
                            scenario.name,
                            counts.calls,
                            counts.cuts,
                            counts.rows,
                            counts.sets,
                            counts.deletion_sets,
                            scenario_start.elapsed().as_secs_f64()
                        );
                    }
                    total.add(&counts);
                    runs += 1;
                }
                Err(difference) => {
                    println!("difference in scenario {}, round {round}", scenario.name);
                    println!("{difference}");
                    return ExitCode::FAILURE;
                }
            }
        }
        round += 1;
        list.retain(|scenario| !scenario.once);
        if list.is_empty() {
            break;
        }
    }
    println!("{total}");
    println!(
        "no difference in {runs} runs of {scenarios} scenarios, {:.0} s",
        start.elapsed().as_secs_f64()
    );
    ExitCode::SUCCESS
}

fn usage(problem: &str) -> ExitCode {
    eprintln!("{problem}\n{USAGE}");
    ExitCode::from(2)
}
