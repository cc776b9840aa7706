//! The stores in Rust pass all vectors of the repository, and a wrong answer is seen.

use std::path::{Path, PathBuf};
use store::{Answer, Call, FastStore, Lent, ModelStore, State, Store};
use vectors::{parts, run_replays, run_traces, Failure, Summary};

const STORES: [&dyn Store; 2] = [&ModelStore, &FastStore];

fn folder(name: &str) -> PathBuf {
    Path::new(env!("CARGO_MANIFEST_DIR"))
        .join("../../tests/vectors")
        .join(name)
}

/// Each store on each folder, which has so many files.
fn assert_passed<const N: usize>(
    run: fn(&dyn Store, &Path) -> Result<Summary, Failure>,
    folders: [(&str, usize); N],
) {
    for store in STORES {
        for (name, files) in folders {
            let summary = run(store, &folder(name)).unwrap_or_else(|f| panic!("{}: {f}", store.name()));
            assert_eq!(summary.files, files, "{name}");
        }
    }
}

#[test]
fn traces() {
    let folders = [
        ("requests/5/trace", 13),
        ("requests/6/trace", 13),
        ("requests/8/trace", 14),
    ];
    assert_passed(run_traces, folders);
}

#[test]
fn replays() {
    let folders = [
        ("replay", 3),
        ("requests/1/replay", 3),
        ("requests/2/replay", 3),
        ("requests/3/replay", 3),
        ("requests/4/replay", 3),
        ("requests/5/replay", 3),
        ("requests/6/replay", 3),
        ("requests/8/replay", 1),
    ];
    assert_passed(run_replays, folders);
}

/// The program runs all of them.
#[test]
fn all_parts() {
    let parts = parts(&folder(""));
    let expected = [
        "",
        "requests/1",
        "requests/2",
        "requests/3",
        "requests/4",
        "requests/5",
        "requests/6",
        "requests/8",
    ];
    assert_eq!(parts, expected.map(Path::new));
    let with = |kind: &str| {
        parts
            .iter()
            .filter(|part| folder("").join(part).join(kind).is_dir())
            .count()
    };
    assert_eq!((with("trace"), with("replay")), (3, 8));
}

/// Opens pages of entries or of deletions and reports none, or loads rows, or does steps.
enum NoCount {
    Pages,
    DeletionPages,
    Rows,
    Steps,
}

impl Store for NoCount {
    fn name(&self) -> &'static str {
        "no count"
    }

    fn call(&self, budget: Option<u64>, state: State, call: &Call, lent: &mut Lent) -> Answer {
        let mut answer = ModelStore.call(budget, state, call, lent);
        match (self, &mut answer) {
            (NoCount::Pages, Answer::Lookup(result)) => result.count = 0,
            (NoCount::DeletionPages, Answer::Lookup(result)) => result.deletion_count = 0,
            (NoCount::Rows, Answer::Load(result)) => result.rows = 0,
            (NoCount::Steps, Answer::Cut(result)) => result.steps = 0,
            _ => {}
        }
        answer
    }
}

#[test]
fn a_wrong_count_is_seen() {
    for result in [
        run_traces(&NoCount::Pages, &folder("requests/5/trace")),
        run_traces(&NoCount::DeletionPages, &folder("requests/5/trace")),
        run_traces(&NoCount::Rows, &folder("requests/5/trace")),
        run_traces(&NoCount::Steps, &folder("requests/8/trace")),
        run_replays(&NoCount::Pages, &folder("replay")),
    ] {
        match result {
            Err(Failure::Difference { expected, got, .. }) => assert_ne!(expected, got),
            other => panic!("not seen: {other:?}"),
        }
    }
}
