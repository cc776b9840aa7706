//! Sizes, areas and addresses.

use crate::header::HEADER_BYTES;
use crate::State;

/// "A page is always four sectors, a block always sixteen pages."
pub const SECTORS_PER_PAGE: usize = 4;
pub const PAGES_PER_BLOCK: usize = 16;
pub const SECTORS_PER_BLOCK: usize = SECTORS_PER_PAGE * PAGES_PER_BLOCK;

/// "S takes one row of this table."
pub const SECTOR_SIZES: [u32; 6] = [16, 32, 64, 128, 256, 512];

/// "R and D are 1 to 4096."
const MOST_BLOCKS: u32 = 4096;

/// "A format may now name k, 1 to 8 hash functions beside h0."
const MOST_HASHES: u32 = 8;

/// "A record is 16 bytes", "a KA entry of 8 bytes", "the 4-byte record number".
pub const RECORD_BYTES: usize = 16;
pub const ENTRY_BYTES: usize = 8;
pub const DELETION_BYTES: usize = 4;

/// "Eight filters fill the SKA page."
pub const FILTERS_PER_FLUSH: usize = 8;
/// "Flush t (0 to 15) of a round."
pub const FLUSHES_PER_ROUND: usize = 16;
pub const FILTERS_PER_ROUND: usize = FILTERS_PER_FLUSH * FLUSHES_PER_ROUND;

/// The pages of the lent RAM: "pages for RA, KA, DA, SKA and work, in that order". Request 5: "the desk" gains "a page of 4S
/// bytes after the work page", for the filters over DA.
#[derive(Clone, Copy, Debug, PartialEq, Eq)]
pub enum RamPage {
    Ra = 0,
    Ka = 1,
    Da = 2,
    Ska = 3,
    Work = 4,
    DeletionSka = 5,
}
const RAM_PAGES: usize = 6;

/// Allowed S, R, D and k. Made by `Geometry::new` only, so that no product below overflows.
#[derive(Clone, Copy, Debug, PartialEq, Eq)]
pub struct Geometry {
    sector_size: usize,
    ra_blocks: usize,
    da_blocks: usize,
    hash_count: usize,
}

impl Geometry {
    /// Nothing if S, R, D or k is not allowed (refusal 1).
    pub fn new(sector_size: u32, ra_blocks: u32, da_blocks: u32, hash_count: u32) -> Option<Geometry> {
        let allowed = SECTOR_SIZES.contains(&sector_size)
            && (1..=MOST_BLOCKS).contains(&ra_blocks)
            && (1..=MOST_BLOCKS).contains(&da_blocks)
            && (1..=MOST_HASHES).contains(&hash_count);
        allowed.then_some(Geometry {
            sector_size: sector_size as usize,
            ra_blocks: ra_blocks as usize,
            da_blocks: da_blocks as usize,
            hash_count: hash_count as usize,
        })
    }

    pub fn of_state(state: State) -> Option<Geometry> {
        Geometry::new(
            state.sector_size,
            state.ra_blocks,
            state.da_blocks,
            state.hash_count,
        )
    }

    pub fn hash_count(self) -> usize {
        self.hash_count
    }

    // The table: S/4, S/2 and 4S.

    pub fn sector_size(self) -> usize {
        self.sector_size
    }

    pub fn page_size(self) -> usize {
        SECTORS_PER_PAGE * self.sector_size
    }

    pub fn records_per_page(self) -> usize {
        self.sector_size / 4
    }

    pub fn entries_per_page(self) -> usize {
        self.sector_size / 2
    }

    pub fn deletions_per_page(self) -> usize {
        self.page_size() / DELETION_BYTES
    }

    pub fn filter_bits(self) -> usize {
        4 * self.sector_size
    }

    /// "Record capacity is 4RS, deletion capacity 16DS."
    pub fn record_capacity(self) -> usize {
        4 * self.ra_blocks * self.sector_size
    }

    pub fn deletion_capacity(self) -> usize {
        16 * self.da_blocks * self.sector_size
    }

    // "Areas in order, in blocks: RA R; KA R/2 rounded up; DA D; L1 one;
    // side A S/4; side B S/4; sealed sets floor(R / (4S)) × S/4."

    pub fn ra_first_block(self) -> usize {
        0
    }

    pub fn ka_first_block(self) -> usize {
        self.ra_first_block() + self.ra_blocks
    }

    pub fn da_first_block(self) -> usize {
        self.ka_first_block() + self.ra_blocks.div_ceil(2)
    }

    /// L1, side A, side B and sealed sets over KA.
    pub fn key_index(self) -> Index {
        Index {
            geometry: self,
            first_block: self.da_first_block() + self.da_blocks,
            places: self.ra_blocks / (4 * self.sector_size),
            ska_page: RamPage::Ska,
        }
    }

    /// Request 5: "an L1, sides and sealed sets of their own: B gains 1 + S/2 + floor(D/S) × S/4 blocks after the present
    /// ones".
    pub fn deletion_index(self) -> Index {
        Index {
            geometry: self,
            first_block: self.key_index().end_block(),
            places: self.da_blocks / self.sector_size,
            ska_page: RamPage::DeletionSka,
        }
    }

    /// Blocks of a side, and of a full set.
    pub fn side_blocks(self) -> usize {
        self.sector_size / 4
    }

    /// "Their sum is B."
    pub fn blocks(self) -> usize {
        self.deletion_index().end_block()
    }

    /// Refusal 2: "cells under 64SB, marks under 64B or desk under 20S bytes"; request 5: it "uses the larger sums".
    pub fn data_bytes(self) -> usize {
        SECTORS_PER_BLOCK * self.sector_size * self.blocks()
    }

    pub fn spare_bytes(self) -> usize {
        SECTORS_PER_BLOCK * self.blocks()
    }

    /// The pages of the RAM, then anything, then its header in the last bytes.
    pub fn ram_bytes(self) -> usize {
        self.ram_page_bytes() + HEADER_BYTES
    }

    pub fn ram_page_bytes(self) -> usize {
        RAM_PAGES * self.page_size()
    }

    /// First byte of a page of the lent RAM.
    pub fn ram_start(self, page: RamPage) -> usize {
        page as usize * self.page_size()
    }

    /// First byte of a flash page.
    pub fn page_start(self, page: usize) -> usize {
        page * self.page_size()
    }

    // "Records, entries and deletions follow each other without gaps from the start of their area."

    pub fn ra_page(self, index: usize) -> usize {
        self.ra_first_block() * PAGES_PER_BLOCK + index
    }

    pub fn ka_page(self, index: usize) -> usize {
        self.ka_first_block() * PAGES_PER_BLOCK + index
    }

    pub fn da_page(self, index: usize) -> usize {
        self.da_first_block() * PAGES_PER_BLOCK + index
    }

    /// A cycle of sets: set 2 to set S/4 + 1, one a round.
    pub fn rounds_per_cycle(self) -> usize {
        self.sector_size / 4
    }

    pub fn filters_per_cycle(self) -> usize {
        FILTERS_PER_ROUND * self.rounds_per_cycle()
    }
}

/// An index: the places of filters on the chip, from a first block on, and the RAM page of those not yet there. It knows nothing of
/// what its filters are of.
#[derive(Clone, Copy, Debug, PartialEq, Eq)]
pub struct Index {
    geometry: Geometry,
    first_block: usize,
    /// Places for full sets.
    places: usize,
    ska_page: RamPage,
}

impl Index {
    pub fn geometry(self) -> Geometry {
        self.geometry
    }

    /// The RAM page whose eight filters a flush programs.
    pub fn ska_page(self) -> RamPage {
        self.ska_page
    }

    // "L1 one; side A S/4; side B S/4; sealed sets", S/4 blocks each.

    pub fn l1_block(self) -> usize {
        self.first_block
    }

    pub fn side_a_first_block(self) -> usize {
        self.l1_block() + 1
    }

    pub fn side_b_first_block(self) -> usize {
        self.side_a_first_block() + self.geometry.side_blocks()
    }

    pub fn full_sets_first_block(self) -> usize {
        self.side_b_first_block() + self.geometry.side_blocks()
    }

    fn end_block(self) -> usize {
        self.full_sets_first_block() + self.places * self.geometry.side_blocks()
    }

    /// "Flush t (0 to 15) of a round programs sector t mod 4 of page 4i + floor(t/4) of L1, for i = 0 to 3."
    pub fn l1_sector(self, flush: usize, i: usize) -> usize {
        let page = self.l1_block() * PAGES_PER_BLOCK + 4 * i + flush / 4;
        page * SECTORS_PER_PAGE + flush % 4
    }
}
