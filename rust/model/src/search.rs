//! The search, the test of a record number, and where records and deletions are.

use crate::filter::has_bits;
use crate::flash::read_number;
use crate::geometry::{Geometry, RamPage, DELETION_BYTES, ENTRY_BYTES, RECORD_BYTES};
use crate::hash::positions;
use crate::State;

/// How a search ended.
#[derive(Clone, Copy, Debug, PartialEq, Eq)]
pub enum Ending {
    /// "An entry with the key whose record number is not in DA is live."
    Live {
        record: u32,
    },
    NotLive,
    /// Refusal 8: "the search meets its key with a record number of n or more".
    WrongRecordNumber,
}

/// The ending of a search and the pages of KA and of DA that it opened.
pub struct SearchResult {
    pub ending: Ending,
    pub count: u32,
    /// "The DA pages opened, .. one opened twice counting twice."
    pub deletion_count: u64,
}

/// A search under way: the bytes that it reads and what it has opened.
struct Search<'a> {
    geometry: Geometry,
    state: State,
    key: u32,
    data: &'a [u8],
    ram: &'a [u8],
    count: u32,
    deletion_count: u64,
}

pub fn search(geometry: Geometry, state: State, key: u32, data: &[u8], ram: &[u8]) -> SearchResult {
    let mut search = Search {
        geometry,
        state,
        key,
        data,
        ram,
        count: 0,
        deletion_count: 0,
    };
    let ending = search.run();
    SearchResult {
        ending,
        count: search.count,
        deletion_count: search.deletion_count,
    }
}

impl Search<'_> {
    /// "First the desk's entries, newest first; then full pages, newest first, opening a page
    /// only if its filter, read from the bytes lent, has all three bits": all k "wherever 01 says three".
    fn run(&mut self) -> Ending {
        let Search {
            geometry,
            state,
            key,
            data,
            ram,
            ..
        } = *self;
        let entries_per_page = geometry.entries_per_page();
        let in_ram = state.records as usize % entries_per_page;
        let full_pages = state.records as usize / entries_per_page;

        let ka_ram = geometry.ram_start(RamPage::Ka);
        if let Some(ending) = self.try_entries(&ram[ka_ram..ka_ram + in_ram * ENTRY_BYTES]) {
            return ending;
        }
        let key_positions = positions(geometry.sector_size(), geometry.hash_count(), key);
        for page in (0..full_pages).rev() {
            if !has_bits(geometry.key_index(), page, full_pages, &key_positions, data, ram) {
                continue;
            }
            // "The count is the pages opened, the last included; the desk's is not counted."
            self.count += 1;
            let start = geometry.page_start(geometry.ka_page(page));
            if let Some(ending) = self.try_entries(&data[start..start + geometry.page_size()]) {
                return ending;
            }
        }
        Ending::NotLive
    }

    /// "Entries of a page are tried last to first." Something if the search ends in this page.
    fn try_entries(&mut self, entries: &[u8]) -> Option<Ending> {
        for entry in entries.chunks_exact(ENTRY_BYTES).rev() {
            if read_number(entry, 0) != self.key {
                continue;
            }
            let record = read_number(entry, 4);
            if record >= self.state.records {
                return Some(Ending::WrongRecordNumber);
            }
            // A deleted entry does not end the search.
            if !self.is_deleted(record) {
                return Some(Ending::Live { record });
            }
        }
        None
    }

    /// Request 5: "each test of a record number takes the desk's numbers first, then DA pages newest first, opening one if either
    /// of its filters has the bits, and ends where the number is met".
    fn is_deleted(&mut self, record: u32) -> bool {
        let Search {
            geometry,
            state,
            data,
            ram,
            ..
        } = *self;
        let deletions_per_page = geometry.deletions_per_page();
        let in_ram = state.deletions as usize % deletions_per_page;
        let full_pages = state.deletions as usize / deletions_per_page;

        let da_ram = geometry.ram_start(RamPage::Da);
        if has_number(&ram[da_ram..da_ram + in_ram * DELETION_BYTES], record) {
            return true;
        }
        // "From the four bytes of each record number, hashed as keys are."
        let number_positions = positions(geometry.sector_size(), geometry.hash_count(), record);
        let index = geometry.deletion_index();
        for page in (0..full_pages).rev() {
            let has = |filter| has_bits(index, filter, 2 * full_pages, &number_positions, data, ram);
            if !has(2 * page) && !has(2 * page + 1) {
                continue;
            }
            self.deletion_count += 1;
            let start = geometry.page_start(geometry.da_page(page));
            if has_number(&data[start..start + geometry.page_size()], record) {
                return true;
            }
        }
        false
    }
}

fn has_number(numbers: &[u8], wanted: u32) -> bool {
    let mut numbers = numbers.chunks_exact(DELETION_BYTES);
    numbers.any(|number| read_number(number, 0) == wanted)
}

/// Where record j < n is: in RAM or not, and the offset of its first byte.
/// Those of full RA pages are on flash, "those of a page not yet full from the start of their desk page".
pub fn record_place(geometry: Geometry, records: usize, record: usize) -> (bool, usize) {
    let records_per_page = geometry.records_per_page();
    if record < records - records % records_per_page {
        let first = geometry.page_start(geometry.ra_page(0));
        (false, first + record * RECORD_BYTES)
    } else {
        let first = geometry.ram_start(RamPage::Ra);
        (true, first + record % records_per_page * RECORD_BYTES)
    }
}
