//! Request 8: the steps of a call, a plain list of which a budget does the first ones.

use crate::filter::{set_sector, Set};
use crate::flash::{erase_block, is_fresh, program_sector};
use crate::geometry::{Geometry, Index};

/// "The maker guarantees that each of these steps, a desk store, a sector program or a block erase, happens wholly or not at all."
pub enum Step {
    /// The RAM from an offset on becomes these bytes.
    Store {
        offset: usize,
        bytes: Vec<u8>,
    },
    Program {
        sector: usize,
        content: Content,
    },
    Erase {
        block: usize,
    },
}

/// What a sector is programmed with.
pub enum Content {
    /// Items and filters: known before the first step.
    Known(Vec<u8>),
    /// A sector, 0 to 3, of a page of a set, made of the bits as they stand when its turn comes.
    OfSet {
        index: Index,
        set: Set,
        page: usize,
        sector: usize,
    },
}

impl Step {
    fn carry_out(&self, geometry: Geometry, data: &mut [u8], spare: &mut [u8], ram: &mut [u8]) {
        match self {
            Step::Store { offset, bytes } => ram[*offset..offset + bytes.len()].copy_from_slice(bytes),
            Step::Program { sector, content } => {
                let bytes = match content {
                    Content::Known(bytes) => bytes,
                    Content::OfSet {
                        index,
                        set,
                        page,
                        sector,
                    } => &set_sector(*index, *set, *page, *sector, data),
                };
                program_sector(data, spare, *sector, bytes);
            }
            Step::Erase { block } => erase_block(data, spare, geometry.sector_size(), *block),
        }
    }

    /// Nothing to program, or a fresh sector?
    fn finds_fresh(&self, spare: &[u8]) -> bool {
        match self {
            Step::Program { sector, .. } => is_fresh(spare, *sector),
            Step::Store { .. } | Step::Erase { .. } => true,
        }
    }
}

/// Is every sector to be programmed fresh, before the first step?
pub fn all_fresh(steps: &[Step], spare: &[u8]) -> bool {
    steps.iter().all(|step| step.finds_fresh(spare))
}

/// "All up to the last programmed sector of the call's list count as done": how many of the list these are.
pub fn count_done(steps: &[Step], spare: &[u8]) -> usize {
    let last = steps.iter().rposition(|step| !step.finds_fresh(spare));
    last.map_or(0, |last| last + 1)
}

/// "A cut is a budget of steps": does the first ones, as many as the budget allows, and gives their number.
pub fn run(
    steps: &[Step],
    budget: u64,
    geometry: Geometry,
    data: &mut [u8],
    spare: &mut [u8],
    ram: &mut [u8],
) -> usize {
    let done = usize::try_from(budget).map_or(steps.len(), |budget| budget.min(steps.len()));
    for step in &steps[..done] {
        step.carry_out(geometry, data, spare, ram);
    }
    done
}
