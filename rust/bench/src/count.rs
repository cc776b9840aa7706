//! One round of calls by one store, inside a function that a profiler can be told to count.

use crate::load::Load;
use crate::measure::{self, Measured, Rounds, RECORD, STORES};
use crate::volume::{Keys, Kind, Volume, ROOM};
use std::hint::black_box;

/// The calls of `name` on a volume of `n` records: `docs/counts.py` counts the instructions of `counted_round`.
/// Gives how many calls that are; for `load` and `inserts`, how many rows.
pub fn run(store: &str, kind: Kind, name: &str, n: usize) -> Option<usize> {
    let store = STORES.into_iter().find(|known| known.name() == store)?;
    let (call, count, records) = match name {
        "load" | "inserts" => return rows(store, kind, name, n),
        // The insert that fills the set of n records.
        "set" => (Measured::Insert, 1, n - 1),
        _ => (
            Measured::ALL.into_iter().find(|call| call.name() == name)?,
            ROOM,
            n,
        ),
    };
    let mut volume = Volume::filled(kind, records, ROOM, Keys::Random)?;
    let keys = measure::keys(&volume, call, count);
    counted_round(&mut || calls(store, &mut volume, &keys, call));
    Some(count)
}

/// A tab of `n` rows on an empty volume, in one load or by inserts.
fn rows(store: &dyn Rounds, kind: Kind, name: &str, n: usize) -> Option<usize> {
    let load = Load::new(kind, n)?;
    let mut volume = load.volume.copy();
    counted_round(&mut || match name {
        "load" => load.load(store, &mut volume),
        _ => load.inserts(store, &mut volume),
    });
    Some(load.rows())
}

#[inline(never)]
#[no_mangle]
fn counted_round(round: &mut dyn FnMut()) {
    round();
}

fn calls(store: &dyn Rounds, volume: &mut Volume, keys: &[u32], call: Measured) {
    match call {
        Measured::Hit | Measured::Miss => {
            let mut answers = Vec::with_capacity(keys.len());
            store.look_up(volume, keys, &mut answers);
            black_box(&answers);
        }
        Measured::Insert | Measured::Update => store.change(volume, keys, RECORD, call),
    }
}
