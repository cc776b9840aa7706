//! Lookups against n, for a plot.

use crate::measure::{lookups, Effort, Measured, STORES};
use crate::volume::{Keys, Kind, Volume, ROOM};
use std::fs::File;
use std::io::{self, BufWriter, Write};

const SECTOR_SIZES: [u32; 3] = [16, 64, 512];
const RECORDS: [usize; 7] = [300, 1_000, 3_000, 10_000, 30_000, 100_000, 300_000];

/// A line for each S, kind of lookup and n: times in microseconds, and pages opened.
pub fn write(file: &str, most: usize) -> io::Result<()> {
    let mut out = BufWriter::new(File::create(file)?);
    let names = STORES.map(|store| format!("{}_us", store.name())).join(",");
    writeln!(out, "S,call,n,{names},pages_opened")?;
    for sector_size in SECTOR_SIZES {
        for call in [Measured::Hit, Measured::Miss] {
            for n in RECORDS.into_iter().filter(|&n| n <= most) {
                // No line where no volume has room for so many.
                let Some(volume) = Volume::filled(Kind::of(sector_size), n, ROOM, Keys::Random) else {
                    continue;
                };
                let ([proved, model, fast], opened) = lookups(&volume, call, Effort::TIMED);
                let (name, opened) = (call.name(), opened.pages);
                writeln!(
                    out,
                    "{sector_size},{name},{n},{proved:.4},{model:.4},{fast:.4},{opened:.3}"
                )?;
            }
        }
    }
    out.flush()
}
