//! The model and the store for speed survive.

use std::process::Command;

fn survives(store: &str) {
    let output = Command::new(env!("CARGO_BIN_EXE_powerloss"))
        .args(["--store", store, "--seasons", "1"])
        .output()
        .expect("the program runs");
    let said = String::from_utf8_lossy(&output.stderr);
    assert!(output.status.success(), "{said}");
    // A season in which no unit dies is none.
    let told = String::from_utf8_lossy(&output.stdout);
    for what in [" deaths", " with a call pending", " of these in a restart"] {
        assert!(number_before(&told, what) > 0, "{told}");
    }
}

/// The number that stands before these words.
fn number_before(text: &str, words: &str) -> usize {
    let (before, _) = text.split_once(words).expect("told");
    let number = before.split(' ').next_back().expect("a word");
    number.parse().expect("a number")
}

/// The program itself refuses a run in which no unit died.
#[test]
fn no_deaths() {
    let output = Command::new(env!("CARGO_BIN_EXE_powerloss"))
        .args(["--store", "fast", "--seasons", "0"])
        .output()
        .expect("the program runs");
    assert_eq!(output.status.code(), Some(1));
}

#[test]
fn model() {
    survives("model");
}

#[test]
fn fast() {
    survives("fast");
}
