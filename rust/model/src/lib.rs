//! Plain model of the level store, written from the sentences of document 01 and of the requests after it.
//!
//! Seven calls, on any state and any slices: `data`, `spare` and `ram` are the
//! bytes that the document calls cells, marks and desk. Nothing is kept between
//! calls; filter bits are read from the lent bytes, and sets are built from the
//! bits as they stand.

#![forbid(unsafe_code)]

mod calls;
mod change;
mod filter;
mod flash;
mod geometry;
mod hash;
mod header;
mod load;
mod search;
mod steps;
mod tab;

pub use calls::{
    delete, delete_cut, format, format_cut, insert, insert_cut, lookup, restart, restart_cut, update,
    update_cut,
};
pub use change::{operations, Operation};
pub use filter::{set_page_count, Set};
pub use geometry::{Geometry, Index, RamPage, SECTOR_SIZES};
pub use hash::{fnv1a, positions};
pub use header::HEADER_BYTES;
pub use load::load;
pub use tab::{read_tab, Reading, Row};

/// "Volumes and replays of document 01 have k = 3."
pub const HASH_COUNT_01: u32 = 3;

/// The state S, R, D, k, n, d: "k joins S, R and D in the state".
#[derive(Clone, Copy, Debug, Default, PartialEq, Eq)]
pub struct State {
    /// S: sector size in bytes.
    pub sector_size: u32,
    /// R: blocks of the record area.
    pub ra_blocks: u32,
    /// D: blocks of the deletion area.
    pub da_blocks: u32,
    /// k: hash functions beside h0.
    pub hash_count: u32,
    /// n: records accepted.
    pub records: u32,
    /// d: deletions accepted.
    pub deletions: u32,
}

impl State {
    /// Its numbers in their order.
    #[inline]
    pub fn numbers(self) -> [u32; 6] {
        [
            self.sector_size,
            self.ra_blocks,
            self.da_blocks,
            self.hash_count,
            self.records,
            self.deletions,
        ]
    }

    #[inline]
    pub fn of_numbers(numbers: [u32; 6]) -> State {
        let [sector_size, ra_blocks, da_blocks, hash_count, records, deletions] = numbers;
        State {
            sector_size,
            ra_blocks,
            da_blocks,
            hash_count,
            records,
            deletions,
        }
    }
}

/// The answer of format, insert, update, delete and restart. Refusal 0: accepted.
#[derive(Clone, Copy, Debug, Default, PartialEq, Eq)]
pub struct Change {
    pub refusal: u32,
    pub state: State,
}

/// The answer of a changing call or a restart with a budget of steps. Finished 1: all its steps are done, `steps` of them, and
/// the state is the new one. Finished 0: it was cut after `steps` of them, or refused; the state is the one handed in.
#[derive(Clone, Copy, Debug, Default, PartialEq, Eq)]
pub struct CutResult {
    pub refusal: u32,
    pub finished: u32,
    pub steps: u64,
    pub state: State,
}

/// The answer of lookup. Found 1: the 16 record bytes start at `offset` of ram
/// (`in_ram` 1) or of data (`in_ram` 0). Found 0: a miss or a refusal. `count` and
/// `deletion_count` are the pages of KA and of DA opened.
#[derive(Clone, Copy, Debug, Default, PartialEq, Eq)]
pub struct LookupResult {
    pub refusal: u32,
    pub found: u32,
    pub count: u32,
    pub in_ram: u32,
    pub offset: u32,
    pub deletion_count: u64,
}

/// The answer of load: the refusal that ended it (0: none, all rows are loaded), the rows loaded, and the
/// state after them.
#[derive(Clone, Copy, Debug, Default, PartialEq, Eq)]
pub struct LoadResult {
    pub refusal: u32,
    pub rows: u32,
    pub state: State,
}
