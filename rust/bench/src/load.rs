//! A tab loaded into an empty volume, beside the same inserts by the call.

use crate::measure::{Effort, Measured, Rounds, FAST, SUBJECT};
use crate::volume::{Keys, Kind, Volume};
use std::time::{Duration, Instant};

/// Moves and goal of every row, in digits that a designer would write, and the free word that a load writes.
const RECORD: [u32; 3] = [40, 1200, 0];

const EFFORT: Effort = Effort {
    rounds: 3,
    time: Duration::from_millis(1500),
};

/// An empty volume with room for the keys, and the tab that has a row for each.
pub struct Load {
    pub volume: Volume,
    keys: Vec<u32>,
    tab: Vec<u8>,
}

impl Load {
    /// Nothing if no volume has room for so many rows.
    pub fn new(kind: Kind, rows: usize) -> Option<Load> {
        let volume = Volume::formatted(kind, rows, 0, Keys::Random)?;
        let keys: Vec<u32> = (0..rows).map(|i| volume.keys.key(i)).collect();
        let mut tab = "level,moves,goal\n".to_string();
        let [moves, goal, _] = RECORD;
        for key in &keys {
            tab += &format!("{key},{moves},{goal}\n");
        }
        Some(Load {
            volume,
            keys,
            tab: tab.into_bytes(),
        })
    }

    pub fn rows(&self) -> usize {
        self.keys.len()
    }

    /// The tab in one load.
    pub fn load(&self, store: &dyn Rounds, volume: &mut Volume) {
        let result = store.load(volume, &self.tab);
        assert_eq!((result.refusal, result.rows as usize), (0, self.rows()));
    }

    /// Its rows, an insert each.
    pub fn inserts(&self, store: &dyn Rounds, volume: &mut Volume) {
        store.change(volume, &self.keys, RECORD, Measured::Insert);
    }

    /// Microseconds a row of the load and of the inserts, by the proved store and by the store for speed.
    pub fn measure(&self) -> [[f64; 2]; 2] {
        let stores = [SUBJECT, FAST];
        let ways = [Load::load, Load::inserts];
        let mut best = [[f64::INFINITY; 2]; 2];
        let mut copies = [(); 4].map(|()| self.volume.copy());
        EFFORT.run(|| {
            for (i, copy) in copies.iter_mut().enumerate() {
                copy.restore(&self.volume);
                let start = Instant::now();
                ways[i % 2](self, stores[i / 2], copy);
                let seconds = start.elapsed().as_secs_f64();
                best[i / 2][i % 2] = seconds.min(best[i / 2][i % 2]);
            }
            let [first, others @ ..] = &copies;
            assert!(others.iter().all(|other| first.same(other)), "the bytes differ");
        });
        best.map(|times| times.map(|seconds| seconds * 1e6 / self.rows() as f64))
    }
}
