//! The stored script of the program `replay_large` gets the model's answers, and reaches what `replay` cannot.

use std::fs;
use std::path::Path;
use store::ModelStore;
use vectors::replay::{replay, LENT_LARGE};

#[test]
fn answers_of_the_model() {
    let folder = Path::new(env!("CARGO_MANIFEST_DIR")).join("../../crates/replay_large");
    let script = fs::read(folder.join("stdin")).expect("the script");
    let answers = fs::read_to_string(folder.join("stdout")).expect("the answers");
    let got = replay(&ModelStore, &script, LENT_LARGE);
    assert_eq!(String::from_utf8(got).expect("plain text"), answers);
    // At S = 16 a set is completed by 1,024 records or deletions, and four sets make a cycle; at S = 64 by 4,096.
    let second = answers[1..].find("ok 0 0").expect("two formats") + 1;
    let (records, deletions) = most(&answers[..second]);
    assert!(
        records > 5 * 1024 && deletions > 5 * 1024,
        "set 2 of the second cycle at S = 16"
    );
    let (records, deletions) = most(&answers[second..]);
    assert!(records > 4096 && deletions > 4096, "set 2 at S = 64");
    assert!(answers.contains("hit") && answers.contains("miss") && !answers.contains("bad"));
}

/// The most records and deletions of a season.
fn most(season: &str) -> (u32, u32) {
    let counts = |line: &str| -> Option<(u32, u32)> {
        let (records, deletions) = line.strip_prefix("ok ")?.split_once(' ')?;
        Some((records.parse().ok()?, deletions.parse().ok()?))
    };
    season
        .lines()
        .filter_map(counts)
        .max()
        .expect("an accepted change")
}
