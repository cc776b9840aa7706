//! The choice of k: pages opened by a lookup for every k, and what a miss takes at two of them.

use crate::measure::{self, lookups, Effort, Measured, FAST};
use crate::tables::{digits, head, row, times_and_ratios, times_head};
use crate::volume::{Keys, Kind, Volume, ROOM};
use std::fs::File;
use std::io::{self, BufWriter, Write};
use std::ops::RangeInclusive;
use std::time::Duration;

const SECTOR_SIZES: [u32; 3] = [16, 64, 512];
const HASH_COUNTS: RangeInclusive<u32> = 1..=8;
const RECORDS: usize = 100_000;
/// Keys looked up for an average.
const LOOKUPS: usize = 4096;

/// Longer than for the other tables: two rows are compared with each other, not two stores.
const EFFORT: Effort = Effort {
    rounds: 5,
    time: Duration::from_millis(1500),
};

/// Prints the average of pages opened by hits and misses for every k, and writes them to a file, a line for each.
pub fn pages(file: &str) -> io::Result<()> {
    let mut out = BufWriter::new(File::create(file)?);
    writeln!(out, "S,keys,call,k,pages_opened")?;
    let names: Vec<String> = HASH_COUNTS.map(|k| format!("k = {k}")).collect();
    let columns = ["S", "keys", "call"].into_iter();
    let columns: Vec<&str> = columns.chain(names.iter().map(String::as_str)).collect();
    head(&format!("Pages opened by k, n = {RECORDS}"), &columns);
    for sector_size in SECTOR_SIZES {
        for (keys, name) in [(Keys::Random, "random"), (Keys::InOrder, "in order")] {
            let volumes: Vec<Volume> = HASH_COUNTS.map(|k| volume(sector_size, k, keys)).collect();
            for call in [Measured::Hit, Measured::Miss] {
                let opened: Vec<f64> = volumes.iter().map(|volume| opened(volume, call)).collect();
                let first = [sector_size.to_string(), name.to_string(), call.name().to_string()];
                row(first.into_iter().chain(opened.iter().copied().map(digits)));
                for (k, opened) in HASH_COUNTS.zip(opened) {
                    writeln!(out, "{sector_size},{name},{},{k},{opened:.3}", call.name())?;
                }
            }
        }
    }
    out.flush()
}

/// A miss at document 01's k and at the next one, by all stores.
pub fn misses() {
    times_head(
        &format!("A miss at two k, n = {RECORDS}"),
        &["S", "k"],
        &["pages opened".to_string()],
    );
    for sector_size in SECTOR_SIZES {
        for hash_count in [3, 4] {
            let volume = volume(sector_size, hash_count, Keys::Random);
            let (micros, opened) = lookups(&volume, Measured::Miss, EFFORT);
            let opened = opened.pages;
            let first = [sector_size, hash_count].map(|number| number.to_string());
            row(first
                .into_iter()
                .chain(times_and_ratios(micros))
                .chain([digits(opened)]));
        }
    }
}

fn volume(sector_size: u32, hash_count: u32, keys: Keys) -> Volume {
    let kind = Kind {
        hash_count,
        ..Kind::of(sector_size)
    };
    Volume::filled(kind, RECORDS, ROOM, keys).expect("the sizes are allowed")
}

/// Pages that a lookup opens on the average. All stores give the same count, so one is enough.
fn opened(volume: &Volume, call: Measured) -> f64 {
    let mut answers = Vec::with_capacity(LOOKUPS);
    let keys = measure::keys(volume, call, LOOKUPS);
    FAST.look_up(&mut volume.copy(), &keys, &mut answers);
    let found = u32::from(call == Measured::Hit);
    assert!(answers.iter().all(|one| one.refusal == 0 && one.found == found));
    answers.iter().map(|one| f64::from(one.count)).sum::<f64>() / LOOKUPS as f64
}
