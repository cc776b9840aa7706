//! `bench [--most N] [--csv FILE]`: times of the proved store beside those of the model and of the
//! store for speed, in one run. `bench --hashes FILE`: the choice of k. `bench --count STORE S CALL N [K]`: one
//! round of calls, to be counted.
//!
//! All stores make the same calls on copies of the same bytes, in turns; of each the
//! fastest round counts. A difference of an answer or of a byte ends the run.

mod count;
mod curve;
mod hashes;
mod load;
mod measure;
mod tables;
mod volume;

use std::env;
use std::process::ExitCode;
use volume::Kind;

const USAGE: &str = "usage: bench [--most N] [--csv FILE] | --hashes FILE | --count STORE S CALL N [K]
With --most, only the sizes of up to N records. With --csv, lookups are measured at more sizes,
and their times and pages opened are written to the file. With --hashes, the pages opened for every
number K of hash functions, which are written to the file, and what a miss takes at K = 3 and 4; all
other tables have K = 3. With --count, one round of the calls `lookup hit`, `lookup miss`, `insert`,
`update` or `set` by one store, or the N rows of a tab by `load` or by `inserts`, for docs/counts.py.";

fn main() -> ExitCode {
    let mut most = usize::MAX;
    let mut csv = None;
    let words: Vec<String> = env::args().skip(1).collect();
    if let [first, store, sector_size, call, n, hash_count @ ..] = words.as_slice() {
        if first == "--count" {
            return counted(store, sector_size, call, n, hash_count);
        }
    }
    if let [first, file] = words.as_slice() {
        if first == "--hashes" {
            return by_hashes(file);
        }
    }
    let mut arguments = words.into_iter();
    while let Some(argument) = arguments.next() {
        match (argument.as_str(), arguments.next()) {
            ("--most", Some(text)) => match text.parse() {
                Ok(number) => most = number,
                Err(_) => return usage(),
            },
            ("--csv", Some(file)) => csv = Some(file),
            _ => return usage(),
        }
    }
    tables::calls(most);
    tables::deletions(most);
    tables::pages(most);
    tables::operations(most);
    tables::longest(most);
    tables::loads(most);
    if let Some(file) = csv {
        if let Err(error) = curve::write(&file, most) {
            eprintln!("{file}: {error}");
            return ExitCode::FAILURE;
        }
    }
    ExitCode::SUCCESS
}

fn by_hashes(file: &str) -> ExitCode {
    if let Err(error) = hashes::pages(file) {
        eprintln!("{file}: {error}");
        return ExitCode::FAILURE;
    }
    hashes::misses();
    ExitCode::SUCCESS
}

fn counted(store: &str, sector_size: &str, call: &str, n: &str, hash_count: &[String]) -> ExitCode {
    let (Ok(sector_size), Ok(n)) = (sector_size.parse(), n.parse()) else {
        return usage();
    };
    let mut kind = Kind::of(sector_size);
    match hash_count {
        [] => {}
        [text] => match text.parse() {
            Ok(hash_count) => kind.hash_count = hash_count,
            Err(_) => return usage(),
        },
        _ => return usage(),
    }
    match count::run(store, kind, call, n) {
        Some(calls) => {
            println!("{calls}");
            ExitCode::SUCCESS
        }
        None => usage(),
    }
}

fn usage() -> ExitCode {
    eprintln!("{USAGE}");
    ExitCode::from(2)
}
