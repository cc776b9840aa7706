//! Sizes and addresses. S is a constant of the type, so that all of this is shifts and sums.

use crate::header::HEADER;
use model::State;

const SECTORS_PER_BLOCK: usize = 64;
const MOST_BLOCKS: u32 = 4096;
const MOST_HASHES: u32 = 8;

pub const FILTERS_PER_FLUSH: usize = 8;
pub const FILTERS_PER_ROUND: usize = 128;
/// One of each half of a page of deletions; a page of entries has one.
pub const FILTERS_PER_DELETION_PAGE: usize = 2;

pub const RECORD: usize = 16;
pub const ENTRY: usize = 8;
pub const DELETION: usize = 4;

/// First bytes of the areas in `data`, for allowed R and D. RA begins at byte 0.
#[derive(Clone, Copy)]
pub struct Layout<const S: usize> {
    pub entries: usize,
    pub deletions: usize,
    pub key_index: Index<S>,
    pub deletion_index: Index<S>,
    pub data_bytes: usize,
    pub record_capacity: usize,
    pub deletion_capacity: usize,
}

impl<const S: usize> Layout<S> {
    pub const PAGE: usize = 4 * S;
    pub const BLOCK: usize = SECTORS_PER_BLOCK * S;
    pub const RECORDS: usize = Self::PAGE / RECORD;
    pub const ENTRIES: usize = Self::PAGE / ENTRY;
    pub const DELETIONS: usize = Self::PAGE / DELETION;

    /// Rounds of a cycle; the last one makes a full set.
    pub const ROUNDS: usize = S / 4;
    pub const CYCLE: usize = Self::ROUNDS * FILTERS_PER_ROUND;
    /// Bytes of a side, and of a full set.
    pub const SIDE: usize = Self::ROUNDS * Self::BLOCK;

    // First bytes of the pages in `ram`. RA's is byte 0.
    pub const RAM_ENTRIES: usize = Self::PAGE;
    pub const RAM_DELETIONS: usize = 2 * Self::PAGE;
    const RAM_KEY_FILTERS: usize = 3 * Self::PAGE;
    pub const RAM_WORK: usize = 4 * Self::PAGE;
    const RAM_DELETION_FILTERS: usize = 5 * Self::PAGE;
    /// Bytes of the six pages. The header is at the end of what is lent.
    pub const RAM_PAGES: usize = 6 * Self::PAGE;

    /// Nothing if R or D is not allowed.
    pub fn new(ra_blocks: u32, da_blocks: u32) -> Option<Self> {
        let allowed = 1..=MOST_BLOCKS;
        if !allowed.contains(&ra_blocks) || !allowed.contains(&da_blocks) {
            return None;
        }
        let (r, d) = (ra_blocks as usize, da_blocks as usize);
        let entries = r * Self::BLOCK;
        let deletions = entries + r.div_ceil(2) * Self::BLOCK;
        let key_index = Index::new(deletions + d * Self::BLOCK, Self::RAM_KEY_FILTERS);
        let second = key_index.full_sets + r / (4 * S) * Self::SIDE;
        let deletion_index = Index::new(second, Self::RAM_DELETION_FILTERS);
        Some(Layout {
            entries,
            deletions,
            key_index,
            deletion_index,
            data_bytes: deletion_index.full_sets + d / S * Self::SIDE,
            record_capacity: 4 * r * S,
            deletion_capacity: 16 * d * S,
        })
    }

    /// The layout of a state whose numbers fit it; S is looked at by the caller.
    pub fn of_state(state: State) -> Option<Self> {
        let layout = Self::new(state.ra_blocks, state.da_blocks)?;
        let fits = (1..=MOST_HASHES).contains(&state.hash_count)
            && state.records as usize <= layout.record_capacity
            && state.deletions as usize <= layout.deletion_capacity
            && state.deletions <= state.records;
        fits.then_some(layout)
    }

    pub fn holds(&self, data: &[u8], spare: &[u8], ram: &[u8]) -> bool {
        data.len() >= self.data_bytes
            && spare.len() >= self.data_bytes / S
            && ram.len() >= Self::RAM_PAGES + HEADER
    }

    /// Bits of a filter in a page of set `number`, as a power of two: w = S/4 divided by the
    /// least power of two not below number - 1.
    pub fn width_log(number: usize) -> u32 {
        Self::ROUNDS.ilog2() - (number - 1).next_power_of_two().ilog2()
    }

    /// Bytes of the pages of set `number`.
    pub fn set_bytes(number: usize) -> usize {
        (number - 1).next_power_of_two() * Self::BLOCK
    }
}

/// First bytes of an index: in `data`, and of its page of filters in `ram`.
#[derive(Clone, Copy)]
pub struct Index<const S: usize> {
    pub l1: usize,
    pub side_a: usize,
    pub side_b: usize,
    pub full_sets: usize,
    pub ram: usize,
}

impl<const S: usize> Index<S> {
    fn new(l1: usize, ram: usize) -> Self {
        let side_a = l1 + Layout::<S>::BLOCK;
        let side_b = side_a + Layout::<S>::SIDE;
        let full_sets = side_b + Layout::<S>::SIDE;
        Index {
            l1,
            side_a,
            side_b,
            full_sets,
            ram,
        }
    }

    /// First byte of set `number` (from 2), built when `full_sets` full sets were there.
    pub fn set(&self, number: usize, full_sets: usize) -> usize {
        if number == Layout::<S>::ROUNDS + 1 {
            self.full_sets + full_sets * Layout::<S>::SIDE
        } else if number.is_multiple_of(2) {
            self.side_a
        } else {
            self.side_b
        }
    }
}
