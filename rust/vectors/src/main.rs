//! `vectors [--store NAME] [FOLDER]`: runs the vectors of a folder against a store.

use std::env;
use std::path::{Path, PathBuf};
use std::process::ExitCode;
use std::time::Instant;
use vectors::{parts, run_replays, run_traces, Failure, Summary};

const USAGE: &str = "usage: vectors [--store model|fast|proved] [FOLDER]
FOLDER (tests/vectors if not given) holds trace/ and replay/, both or one, also in requests/*; it is
looked for from the current folder upwards. The store proved needs the feature proved.";

fn main() -> ExitCode {
    let mut store_name = "model".to_string();
    let mut folder = "tests/vectors".to_string();
    let mut arguments = env::args().skip(1);
    while let Some(argument) = arguments.next() {
        match argument.as_str() {
            "--store" => match arguments.next() {
                Some(name) => store_name = name,
                None => return usage("--store needs a name"),
            },
            other if other.starts_with('-') => return usage(&format!("unknown option {other}")),
            other => folder = other.to_string(),
        }
    }
    let Some(store) = store::by_name(&store_name) else {
        return usage(&format!("no store {store_name}"));
    };
    let Some(folder) = find_folder(Path::new(&folder)) else {
        return usage(&format!("no folder {folder}"));
    };
    type Run = fn(&dyn store::Store, &Path) -> Result<Summary, Failure>;
    let runs: [(&str, Run); 2] = [("trace", run_traces), ("replay", run_replays)];
    let parts = parts(&folder);
    let all = parts.iter().flat_map(|part| runs.map(|run| (part, run)));
    for (part, (kind, run)) in all {
        let name = part.join(kind);
        // Of some requests only one kind still holds.
        if !folder.join(&name).is_dir() {
            continue;
        }
        let start = Instant::now();
        match run(&*store, &folder.join(&name)) {
            Ok(summary) => println!(
                "{}: {} files, {} lines agree with store {} ({:.1} s)",
                name.display(),
                summary.files,
                summary.lines,
                store.name(),
                start.elapsed().as_secs_f64()
            ),
            Err(failure) => {
                println!("{failure}");
                return ExitCode::FAILURE;
            }
        }
    }
    ExitCode::SUCCESS
}

fn usage(problem: &str) -> ExitCode {
    eprintln!("{problem}\n{USAGE}");
    ExitCode::from(2)
}

/// The folder as named from the current folder or from one above it.
fn find_folder(name: &Path) -> Option<PathBuf> {
    let current = env::current_dir().ok()?;
    current
        .ancestors()
        .map(|above| above.join(name))
        .find(|folder| folder.is_dir())
}
