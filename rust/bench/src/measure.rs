//! The same calls by all stores, in turns.

use crate::volume::{Volume, ROOM};
use difftest::random::Random;
use std::time::{Duration, Instant};
use store::{Call, FastStore, LoadResult, LookupResult, ModelStore, Store};

#[cfg(feature = "proved")]
pub const SUBJECT: &dyn Rounds = &store::ProvedStore;
#[cfg(not(feature = "proved"))]
pub const SUBJECT: &dyn Rounds = &ModelStore;
pub const FAST: &dyn Rounds = &FastStore;

/// The stores, in the order of all columns.
pub const STORES: [&dyn Rounds; 3] = [SUBJECT, &ModelStore, FAST];

/// Rounds of calls of one kind, compiled for each store: there the call is known, so that the store's function for it is called
/// directly, and no choice of a call is measured.
pub trait Rounds: Store {
    fn look_up(&self, volume: &mut Volume, keys: &[u32], answers: &mut Vec<LookupResult>);

    /// Inserts or updates, all with this record behind the key.
    fn change(&self, volume: &mut Volume, keys: &[u32], record: [u32; 3], measured: Measured);

    fn load(&self, volume: &mut Volume, tab: &[u8]) -> LoadResult;
}

impl<S: Store> Rounds for S {
    fn look_up(&self, volume: &mut Volume, keys: &[u32], answers: &mut Vec<LookupResult>) {
        let Volume { state, memory, .. } = volume;
        let mut lent = memory.lent();
        for &key in keys {
            let call = Call::Lookup { key };
            answers.push(self.call(None, *state, &call, &mut lent).lookup());
        }
    }

    fn change(&self, volume: &mut Volume, keys: &[u32], record: [u32; 3], measured: Measured) {
        let Volume { state, memory, .. } = volume;
        let mut lent = memory.lent();
        let [moves, goal, word] = record;
        for &key in keys {
            let change = match measured {
                Measured::Update => {
                    let call = Call::Update {
                        key,
                        moves,
                        goal,
                        word,
                    };
                    self.call(None, *state, &call, &mut lent).change()
                }
                _ => {
                    let call = Call::Insert {
                        key,
                        moves,
                        goal,
                        word,
                    };
                    self.call(None, *state, &call, &mut lent).change()
                }
            };
            assert_eq!(change.refusal, 0, "key {key}");
            *state = change.state;
        }
    }

    fn load(&self, volume: &mut Volume, tab: &[u8]) -> LoadResult {
        let Volume { state, memory, .. } = volume;
        let result = self
            .call(None, *state, &Call::Load { tab }, &mut memory.lent())
            .load();
        *state = result.state;
        result
    }
}

/// Moves, goal and word of every change.
pub const RECORD: [u32; 3] = [7, 8, 9];

/// How many rounds at least, and how long: short rounds are repeated, so that one of them is undisturbed.
#[derive(Clone, Copy)]
pub struct Effort {
    pub rounds: usize,
    pub time: Duration,
}

impl Effort {
    pub const TIMED: Effort = Effort {
        rounds: 5,
        time: Duration::from_millis(100),
    };

    pub const fn rounds(rounds: usize) -> Effort {
        Effort {
            rounds,
            time: Duration::ZERO,
        }
    }

    pub fn run(self, mut round: impl FnMut()) {
        let start = Instant::now();
        let mut done = 0;
        while done < self.rounds || start.elapsed() < self.time {
            round();
            done += 1;
        }
    }
}

/// What a row of the tables measures.
#[derive(Clone, Copy, PartialEq, Eq)]
pub enum Measured {
    Hit,
    Miss,
    Insert,
    Update,
}

impl Measured {
    pub const ALL: [Measured; 4] = [Measured::Hit, Measured::Miss, Measured::Insert, Measured::Update];

    pub fn name(self) -> &'static str {
        match self {
            Measured::Hit => "lookup hit",
            Measured::Miss => "lookup miss",
            Measured::Insert => "insert",
            Measured::Update => "update",
        }
    }
}

/// Seconds of each store for each part of a round, in the round that was fastest there. In parts, because on a
/// busy machine a whole round is rarely undisturbed.
struct Best {
    calls_of_part: usize,
    parts: Vec<[f64; 3]>,
}

impl Best {
    fn new(calls: usize) -> Best {
        let calls_of_part = calls.div_ceil(16).max(4);
        Best {
            calls_of_part,
            parts: vec![[f64::INFINITY; 3]; calls.div_ceil(calls_of_part)],
        }
    }

    fn time(&mut self, which: usize, keys: &[u32], mut run: impl FnMut(&[u32])) {
        for (best, keys) in self.parts.iter_mut().zip(keys.chunks(self.calls_of_part)) {
            let start = Instant::now();
            run(keys);
            best[which] = best[which].min(start.elapsed().as_secs_f64());
        }
    }

    /// Microseconds a call.
    fn micros(&self, calls: usize) -> [f64; 3] {
        [0, 1, 2].map(|which| {
            let seconds: f64 = self.parts.iter().map(|part| part[which]).sum();
            seconds * 1e6 / calls as f64
        })
    }
}

/// Microseconds a call of each store.
pub fn measure(volume: &Volume, call: Measured) -> [f64; 3] {
    match call {
        Measured::Hit | Measured::Miss => lookups(volume, call, Effort::TIMED).0,
        Measured::Insert | Measured::Update => changes(volume, call, ROOM, Effort::TIMED),
    }
}

/// Pages opened by a lookup on the average.
#[derive(Clone, Copy)]
pub struct Opened {
    /// Of entries.
    pub pages: f64,
    pub deletion_pages: f64,
}

/// Microseconds a lookup of each store, and pages opened by one. All stores read the same bytes.
pub fn lookups(volume: &Volume, call: Measured, effort: Effort) -> ([f64; 3], Opened) {
    // Short ones need many calls to be timed.
    let count = ROOM * (100_000 / volume.state.records as usize).max(1);
    let keys = keys(volume, call, count);
    let mut best = Best::new(count);
    let mut answers = STORES.map(|_| Vec::with_capacity(count));
    let mut copy = volume.copy();
    effort.run(|| {
        for (which, store) in STORES.into_iter().enumerate() {
            answers[which].clear();
            best.time(which, &keys, |keys| {
                store.look_up(&mut copy, keys, &mut answers[which])
            });
        }
        let [first, others @ ..] = &answers;
        assert!(others.iter().all(|other| first == other), "the answers differ");
        let found = u32::from(call == Measured::Hit);
        assert!(first.iter().all(|one| one.refusal == 0 && one.found == found));
    });
    let average = |opened: fn(&LookupResult) -> u64| {
        let sum: u64 = answers[0].iter().map(opened).sum();
        sum as f64 / count as f64
    };
    let opened = Opened {
        pages: average(|one| u64::from(one.count)),
        deletion_pages: average(|one| one.deletion_count),
    };
    (best.micros(count), opened)
}

/// Microseconds a change of each store, each on its own copy of the bytes.
pub fn changes(volume: &Volume, call: Measured, count: usize, effort: Effort) -> [f64; 3] {
    let keys = keys(volume, call, count);
    let mut best = Best::new(count);
    let mut copies = STORES.map(|_| volume.copy());
    effort.run(|| {
        for (which, store) in STORES.into_iter().enumerate() {
            let copy = &mut copies[which];
            copy.restore(volume);
            best.time(which, &keys, |keys| store.change(copy, keys, RECORD, call));
        }
        let [first, others @ ..] = &copies;
        assert!(others.iter().all(|other| first.same(other)), "the bytes differ");
    });
    best.micros(count)
}

/// A key for each call, other ones all the time, lest the processor learns them.
pub fn keys(volume: &Volume, call: Measured, count: usize) -> Vec<u32> {
    let mut random = Random::new(0xBE9C);
    let live = volume.live();
    (0..count)
        .map(|i| match call {
            Measured::Hit => volume.keys.key(random.below(live)),
            // None twice.
            Measured::Update => volume.keys.key(random.below(live / count) * count + i),
            Measured::Miss | Measured::Insert => volume.keys.key(live + i),
        })
        .collect()
}
