//! Filters: where each lies, how its bits are read, and how they are built.

use crate::flash::{read_bit, set_bit};
use crate::geometry::{
    Geometry, Index, FILTERS_PER_FLUSH, FILTERS_PER_ROUND, PAGES_PER_BLOCK, SECTORS_PER_PAGE,
};
use crate::hash::positions;

/// Set number i, from 2, built when `full_sets` full sets were there.
#[derive(Clone, Copy, Debug, PartialEq, Eq)]
pub struct Set {
    pub number: usize,
    pub full_sets: usize,
}

/// "P being 16 times the least power of two not below i − 1."
pub fn set_page_count(number: usize) -> usize {
    16 * (number - 1).next_power_of_two()
}

impl Set {
    pub fn page_count(self) -> usize {
        set_page_count(self.number)
    }

    pub fn block_count(self) -> usize {
        self.page_count() / PAGES_PER_BLOCK
    }

    /// "With w = m/P."
    pub fn width(self, geometry: Geometry) -> usize {
        geometry.filter_bits() / self.page_count()
    }

    /// "Built out of L1 and set i−1": 128 filters a round.
    pub fn filter_count(self) -> usize {
        (self.number - 1) * FILTERS_PER_ROUND
    }

    /// "An even i goes to side A, an odd one to side B, from the side's first page.
    /// Set S/4 + 1 is full at m pages and goes to the next sealed place instead."
    pub fn first_block(self, index: Index) -> usize {
        let geometry = index.geometry();
        if self.number == geometry.rounds_per_cycle() + 1 {
            index.full_sets_first_block() + self.full_sets * geometry.side_blocks()
        } else if self.number.is_multiple_of(2) {
            index.side_a_first_block()
        } else {
            index.side_b_first_block()
        }
    }

    pub fn first_page(self, index: Index) -> usize {
        self.first_block(index) * PAGES_PER_BLOCK
    }
}

/// Where a filter lies.
#[derive(Clone, Copy)]
enum Place {
    SkaPage { slot: usize },
    LevelOne { flush: usize, slot: usize },
    Set { set: Set, number: usize },
}

/// Where a filter of an index lies when there are so many. It follows from their number alone.
fn place_of_filter(geometry: Geometry, filter: usize, filters: usize) -> Place {
    let cycle = geometry.filters_per_cycle();
    let rounds = filters / FILTERS_PER_ROUND;
    if filter >= filters - filters % FILTERS_PER_FLUSH {
        // Not yet flushed.
        Place::SkaPage {
            slot: filter % FILTERS_PER_FLUSH,
        }
    } else if filter >= filters - filters % FILTERS_PER_ROUND {
        // Flushed in the present round.
        level_one_place(filter)
    } else if filter >= filters - filters % cycle {
        // In the newest set, which has all earlier filters of its cycle.
        let set = Set {
            number: rounds % geometry.rounds_per_cycle() + 1,
            full_sets: filters / cycle,
        };
        Place::Set {
            set,
            number: filter % cycle,
        }
    } else {
        // In a full set.
        let set = Set {
            number: geometry.rounds_per_cycle() + 1,
            full_sets: filter / cycle,
        };
        Place::Set {
            set,
            number: filter % cycle,
        }
    }
}

fn level_one_place(filter: usize) -> Place {
    Place::LevelOne {
        flush: filter % FILTERS_PER_ROUND / FILTERS_PER_FLUSH,
        slot: filter % FILTERS_PER_FLUSH,
    }
}

/// Has a filter of an index, when there are so many, the bits at all these positions, "read from the bytes lent"?
pub fn has_bits(
    index: Index,
    filter: usize,
    filters: usize,
    positions: &[usize],
    data: &[u8],
    ram: &[u8],
) -> bool {
    let place = place_of_filter(index.geometry(), filter, filters);
    positions
        .iter()
        .all(|&position| filter_bit(index, place, position, data, ram))
}

/// The bit of a filter at a position below m, read from the lent bytes.
fn filter_bit(index: Index, place: Place, position: usize, data: &[u8], ram: &[u8]) -> bool {
    let geometry = index.geometry();
    let sector_size = geometry.sector_size();
    match place {
        // "Sector i holds bits iS to iS+S−1 of each filter, oldest filter first."
        Place::SkaPage { slot } => {
            let sector = geometry.ram_start(index.ska_page()) + position / sector_size * sector_size;
            read_bit(&ram[sector..], slot * sector_size + position % sector_size)
        }
        Place::LevelOne { flush, slot } => {
            let sector = index.l1_sector(flush, position / sector_size) * sector_size;
            read_bit(&data[sector..], slot * sector_size + position % sector_size)
        }
        // "page p holds bits pw to pw+w−1 of each filter; filter g of the set, .. has its part at bits gw to gw+w−1"
        Place::Set { set, number } => {
            let width = set.width(geometry);
            let page = set.first_page(index) + position / width;
            read_bit(
                &data[geometry.page_start(page)..],
                number * width + position % width,
            )
        }
    }
}

/// A filter "with the positions of all its keys set", or of all its record numbers, "hashed as keys are". It replaces its place
/// in the SKA page whole.
pub fn write_filter(index: Index, filter: usize, numbers: &[u32], ram: &mut [u8]) {
    let geometry = index.geometry();
    let sector_size = geometry.sector_size();
    let start = geometry.ram_start(index.ska_page());
    let ska_page = &mut ram[start..start + geometry.page_size()];
    let slot = filter % FILTERS_PER_FLUSH;
    let slot_bytes = sector_size / FILTERS_PER_FLUSH;
    for i in 0..SECTORS_PER_PAGE {
        let start = i * sector_size + slot * slot_bytes;
        ska_page[start..start + slot_bytes].fill(0);
    }
    for &number in numbers {
        for position in positions(sector_size, geometry.hash_count(), number) {
            let sector = position / sector_size * sector_size;
            set_bit(
                &mut ska_page[sector..],
                slot * sector_size + position % sector_size,
            );
        }
    }
}

/// "set number i .. is built out of L1 and set i−1", from the bits as they stand: a sector, 0 to 3, of one of its pages.
pub fn set_sector(index: Index, set: Set, page: usize, sector: usize, data: &[u8]) -> Vec<u8> {
    let geometry = index.geometry();
    let earlier = Set {
        number: set.number - 1,
        full_sets: set.full_sets,
    };
    let from_earlier = set.filter_count() - FILTERS_PER_ROUND;
    let width = set.width(geometry);
    // A sector holds whole parts of filters.
    let filters = 8 * geometry.sector_size() / width;
    let first = sector * filters;
    // "The rest is zero."
    let mut bytes = vec![0; geometry.sector_size()];
    for number in first..(first + filters).min(set.filter_count()) {
        let place = if number < from_earlier {
            Place::Set { set: earlier, number }
        } else {
            level_one_place(number)
        };
        for bit in 0..width {
            if filter_bit(index, place, page * width + bit, data, &[]) {
                set_bit(&mut bytes, (number - first) * width + bit);
            }
        }
    }
    bytes
}
