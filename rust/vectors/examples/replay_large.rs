//! Writes the script of the program `replay_large` and the model's answers to it:
//! `cargo run --release -p vectors --example replay_large -- ../crates/replay_large`.
//!
//! At S = 16 the script fills sets 2 to 5, the last a full one, and set 2 of the second cycle, of both indexes; at S = 64
//! it fills set 2 of both.

use std::fmt::Write as _;
use std::{env, fs, io, path::Path};
use store::ModelStore;
use vectors::replay::{replay, LENT_LARGE};

/// From one key to the next: an odd step visits every key once.
const STEP: u32 = 2_654_435_769;

fn main() -> io::Result<()> {
    let folder = env::args().nth(1).expect("the folder to write to");
    let folder = Path::new(&folder);
    let mut script = String::new();
    season(&mut script, "f 16 96 21", 5_400);
    season(&mut script, "f 64 32 5", 4_300);
    fs::write(folder.join("stdin"), &script)?;
    fs::write(
        folder.join("stdout"),
        replay(&ModelStore, script.as_bytes(), LENT_LARGE),
    )
}

/// A format, so many records of which most are updates, and a lookup after every twentieth; at the end
/// lookups of levels old and new, present and absent.
fn season(script: &mut String, format: &str, records: u32) {
    let mut line = |text: std::fmt::Arguments| {
        script
            .write_fmt(text)
            .and_then(|()| script.write_char('\n'))
            .expect("a string takes all")
    };
    line(format_args!("{format}"));
    let mut levels: u32 = 0;
    // Any of the levels, by a number.
    let level = |i: u32, levels: u32| STEP.wrapping_mul(1 + i.wrapping_mul(7_919) % levels);
    for record in 0..records {
        match record % 40 {
            0 => {
                levels += 1;
                line(format_args!("i {} {record}", STEP.wrapping_mul(levels)));
            }
            _ => line(format_args!("u {} {record}", level(record, levels))),
        }
        match record % 40 {
            19 => line(format_args!("l {}", level(record / 3, levels))),
            39 => line(format_args!("l {record}")),
            _ => {}
        }
        if record % 64 == 50 {
            line(format_args!("d {}", level(record, levels)));
        }
    }
    for i in 1..=levels {
        line(format_args!("l {}", STEP.wrapping_mul(i)));
    }
}
