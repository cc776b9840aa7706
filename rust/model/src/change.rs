//! What an accepted insert, update or delete programs and erases, and what it leaves in RAM.

use crate::filter::{write_filter, Set};
use crate::flash::{read_number, write_number};
use crate::geometry::{
    Geometry, Index, RamPage, DELETION_BYTES, ENTRY_BYTES, FILTERS_PER_FLUSH, FILTERS_PER_ROUND,
    FLUSHES_PER_ROUND, RECORD_BYTES, SECTORS_PER_PAGE,
};
use crate::steps::{Content, Step};
use crate::State;
use std::ops::Range;

/// The four numbers of a record.
#[derive(Clone, Copy, Default)]
pub struct Record {
    pub key: u32,
    pub moves: u32,
    pub goal: u32,
    pub word: u32,
}

/// An operation of the chip.
#[derive(Clone, Copy, Debug, PartialEq, Eq)]
pub enum Operation {
    Program { sector: usize },
    Erase { block: usize },
}

/// What an accepted call does on the chip, and what it leaves.
pub struct Plan {
    pub geometry: Geometry,
    /// Programs and erases, in the order in which they are carried out.
    pub operations: Vec<Step>,
    /// The finished RAM but for its header.
    pub ram: Vec<u8>,
    pub state: State,
}

impl Plan {
    /// Appends a deletion (of a record number), a record or both: "DA page, RA page, KA page", each with its filters. Request 5:
    /// "the deletion filters and their erases follow the DA page directly".
    pub fn of_change(
        geometry: Geometry,
        state: State,
        deleted: Option<u32>,
        inserted: Option<Record>,
        ram: &[u8],
    ) -> Plan {
        let mut plan = Plan {
            geometry,
            operations: Vec::new(),
            ram: ram.to_vec(),
            state,
        };
        if let Some(number) = deleted {
            plan.append_deletion(number);
        }
        if let Some(record) = inserted {
            plan.append_record(record);
        }
        // "Zeroes each desk page it has programmed and the work page, and keeps all other desk bytes."
        plan.zero(RamPage::Work);
        plan
    }

    /// "Format erases blocks 0 to B − 1, rising", "zeroes the desk and gives n = d = 0".
    pub fn of_format(geometry: Geometry, new: State, ram: &[u8]) -> Plan {
        let mut ram = ram.to_vec();
        ram[..geometry.ram_page_bytes()].fill(0);
        Plan {
            geometry,
            operations: (0..geometry.blocks())
                .map(|block| Step::Erase { block })
                .collect(),
            ram,
            state: new,
        }
    }

    /// "A deletion appends the 4-byte record number to DA."
    fn append_deletion(&mut self, number: u32) {
        let geometry = self.geometry;
        let per_page = geometry.deletions_per_page();
        let (page, place) = divided(self.state.deletions, per_page);
        let start = geometry.ram_start(RamPage::Da) + place * DELETION_BYTES;
        write_number(&mut self.ram, start, number);
        self.state.deletions += 1;
        // "A page is programmed by the call that fills it."
        if place + 1 == per_page {
            self.program(RamPage::Da, geometry.da_page(page));
            // "Each full DA page gives two filters of m bits, first half first."
            let index = geometry.deletion_index();
            self.filter(index, 2 * page, RamPage::Da, DELETION_BYTES, 0..per_page / 2);
            self.filter(
                index,
                2 * page + 1,
                RamPage::Da,
                DELETION_BYTES,
                per_page / 2..per_page,
            );
            self.zero(RamPage::Da);
        }
    }

    fn append_record(&mut self, record: Record) {
        let geometry = self.geometry;
        let number = self.state.records;
        self.state.records += 1;
        // "Level key, moves, goal, free word, 4 bytes each."
        let per_page = geometry.records_per_page();
        let (page, place) = divided(number, per_page);
        let start = geometry.ram_start(RamPage::Ra) + place * RECORD_BYTES;
        write_number(&mut self.ram, start, record.key);
        write_number(&mut self.ram, start + 4, record.moves);
        write_number(&mut self.ram, start + 8, record.goal);
        write_number(&mut self.ram, start + 12, record.word);
        if place + 1 == per_page {
            self.program(RamPage::Ra, geometry.ra_page(page));
            self.zero(RamPage::Ra);
        }

        // "Record j, from 0, gets a KA entry of 8 bytes: key, then j."
        let per_page = geometry.entries_per_page();
        let (page, place) = divided(number, per_page);
        let start = geometry.ram_start(RamPage::Ka) + place * ENTRY_BYTES;
        write_number(&mut self.ram, start, record.key);
        write_number(&mut self.ram, start + 4, number);
        if place + 1 == per_page {
            self.program(RamPage::Ka, geometry.ka_page(page));
            // "A full KA page gives one filter of m bits."
            self.filter(geometry.key_index(), page, RamPage::Ka, ENTRY_BYTES, 0..per_page);
            self.zero(RamPage::Ka);
        }
    }

    fn ram_page(&mut self, page: RamPage) -> &mut [u8] {
        let start = self.geometry.ram_start(page);
        &mut self.ram[start..start + self.geometry.page_size()]
    }

    fn zero(&mut self, page: RamPage) {
        self.ram_page(page).fill(0);
    }

    /// A RAM page goes to the four sectors of a page of the chip.
    fn program(&mut self, from: RamPage, page: usize) {
        self.program_sectors(from, |i| page * SECTORS_PER_PAGE + i);
    }

    /// A RAM page goes to these sectors.
    fn program_sectors(&mut self, from: RamPage, sector: impl Fn(usize) -> usize) {
        let sector_size = self.geometry.sector_size();
        let bytes = self.ram_page(from).to_vec();
        for (i, part) in bytes.chunks_exact(sector_size).enumerate() {
            self.operations.push(Step::Program {
                sector: sector(i),
                content: Content::Known(part.to_vec()),
            });
        }
    }

    /// A filter of an index, of the first numbers of these of a RAM page's items; then "SKA sectors, set pages, each rising; last
    /// the erases" if it fills them.
    fn filter(&mut self, index: Index, filter: usize, from: RamPage, item_bytes: usize, items: Range<usize>) {
        let page = self.ram_page(from);
        let numbers: Vec<u32> = items.map(|i| read_number(page, i * item_bytes)).collect();
        write_filter(index, filter, &numbers, &mut self.ram);
        if (filter + 1).is_multiple_of(FILTERS_PER_FLUSH) {
            let flush = filter / FILTERS_PER_FLUSH % FLUSHES_PER_ROUND;
            self.program_sectors(index.ska_page(), |i| index.l1_sector(flush, i));
            self.zero(index.ska_page());
        }
        if (filter + 1).is_multiple_of(FILTERS_PER_ROUND) {
            // "After flush 15, set number i (from 2) is built"; after a full set
            // "numbering then starts again at 2".
            let round = filter / FILTERS_PER_ROUND;
            let rounds_per_cycle = self.geometry.rounds_per_cycle();
            self.set(
                index,
                Set {
                    number: round % rounds_per_cycle + 2,
                    full_sets: round / rounds_per_cycle,
                },
            );
        }
    }

    fn set(&mut self, index: Index, set: Set) {
        for page in 0..set.page_count() {
            for sector in 0..SECTORS_PER_PAGE {
                self.operations.push(Step::Program {
                    sector: (set.first_page(index) + page) * SECTORS_PER_PAGE + sector,
                    content: Content::OfSet {
                        index,
                        set,
                        page,
                        sector,
                    },
                });
            }
        }
        // "The erases, L1, then the blocks of set i−1. Set 2 has no earlier set."
        self.erase(index.l1_block());
        if set.number > 2 {
            let earlier = Set {
                number: set.number - 1,
                full_sets: set.full_sets,
            };
            let first = earlier.first_block(index);
            for block in first..first + earlier.block_count() {
                self.erase(block);
            }
        }
    }

    fn erase(&mut self, block: usize) {
        self.operations.push(Step::Erase { block });
    }
}

/// The page of an item, and its place there.
fn divided(item: u32, per_page: usize) -> (usize, usize) {
    (item as usize / per_page, item as usize % per_page)
}

/// The operations of an accepted change, in the order in which it carries them out. They do not depend on what is deleted and
/// inserted.
pub fn operations(geometry: Geometry, state: State, deletes: bool, inserts: bool) -> Vec<Operation> {
    let deleted = deletes.then_some(0);
    let inserted = inserts.then_some(Record::default());
    let ram = vec![0; geometry.ram_bytes()];
    Plan::of_change(geometry, state, deleted, inserted, &ram)
        .operations
        .iter()
        .filter_map(|step| match *step {
            Step::Program { sector, .. } => Some(Operation::Program { sector }),
            Step::Erase { block } => Some(Operation::Erase { block }),
            Step::Store { .. } => None,
        })
        .collect()
}
