//! The steps of a change: the intent, the chip operations, the finished RAM. Until the last of them the pages of the RAM stay as
//! they were: what is programmed are these pages with the new items and filters in their places.

use crate::hash::{for_hash_count, positions};
use crate::header::{store_intent, store_state, Intent};
use crate::layout::{Index, Layout, DELETION, ENTRY, FILTERS_PER_FLUSH, RECORD};
use crate::plan::{FilterPlan, Filters, Item, Items, Plan, Row, Set, FOUR};
use crate::rebuild::rebuild;
use model::State;
use std::ops::Range;

const PROGRAMMED: u8 = 0x00;
const ERASED: u8 = 0xFF;

/// Bytes of a page of S = 512.
const LONGEST_PAGE: usize = 2048;

/// The slices that a change may write.
pub struct Lent<'a> {
    pub data: &'a mut [u8],
    pub spare: &'a mut [u8],
    pub ram: &'a mut [u8],
}

/// How far a call came: its steps done, and the new state if these are all.
pub struct Progress {
    pub steps: u64,
    pub state: Option<State>,
}

impl Progress {
    pub fn cut(steps: u64) -> Progress {
        Progress { steps, state: None }
    }
}

/// The steps of a call that fills no page, as many as the budget has: there is no operation.
#[inline(always)]
pub fn store_items<const S: usize>(
    items: &Items,
    state: State,
    intent: Intent,
    budget: u64,
    ram: &mut [u8],
) -> Progress {
    if budget == 0 {
        return Progress::cut(0);
    }
    store_intent(state, intent, ram);
    if budget == 1 {
        return Progress::cut(1);
    }
    finish::<S>(items, ram);
    Progress {
        steps: 2,
        state: Some(items.next),
    }
}

/// The steps of any call.
pub fn carry_out<const S: usize>(
    plan: &Plan<S>,
    state: State,
    intent: Intent,
    budget: u64,
    lent: Lent,
) -> Progress {
    let Some(budget) = budget.checked_sub(1) else {
        return Progress::cut(0);
    };
    store_intent(state, intent, lent.ram);
    let progress = go_on(plan, 0, budget, lent);
    Progress {
        steps: 1 + progress.steps,
        ..progress
    }
}

/// The steps behind the first `done` operations, as many as the budget has.
pub fn go_on<const S: usize>(plan: &Plan<S>, done: usize, budget: u64, lent: Lent) -> Progress {
    let Lent { data, spare, ram } = lent;
    let left = (plan.operations() - done) as u64;
    let to = done + left.min(budget) as usize;
    plan.part(done, to, |row, part| match row {
        Row::Page {
            start,
            ram: from,
            last,
        } => {
            let page = &ram[from..][..Layout::<S>::PAGE];
            program_page::<S>(start, page, last, part, data, spare);
        }
        Row::Flush { start, plan: of } => program_flush(&plan.items, of, start, part, data, spare, ram),
        Row::Set { index, set } => program_set(index, set, part, data, spare),
        Row::Erases { index, set } => erase_earlier(index, set, part, data, spare),
    });
    if budget <= left {
        return Progress::cut(budget);
    }
    // The items of a page have to be there yet.
    for filters in [&plan.deletion_filters, &plan.key_filters].into_iter().flatten() {
        finish_filters(&plan.items, filters, ram);
    }
    finish::<S>(&plan.items, ram);
    Progress {
        steps: left + 1,
        state: Some(plan.items.next),
    }
}

/// Programs these sectors of a page with a page of RAM and its last item.
fn program_page<const S: usize>(
    start: usize,
    page: &[u8],
    last: &[u8],
    part: Range<usize>,
    data: &mut [u8],
    spare: &mut [u8],
) {
    let to = &mut data[start..][..Layout::<S>::PAGE];
    let bytes = part.start * S..part.end * S;
    to[bytes.clone()].copy_from_slice(&page[bytes]);
    if part.end == FOUR {
        to[Layout::<S>::PAGE - last.len()..].copy_from_slice(last);
    }
    spare[start / S..][part].fill(PROGRAMMED);
}

/// Programs these sectors of a flush: the index's page of filters in RAM with the new ones.
#[inline(never)]
fn program_flush<const S: usize>(
    items: &Items,
    of: &FilterPlan<S>,
    start: usize,
    part: Range<usize>,
    data: &mut [u8],
    spare: &mut [u8],
    ram: &[u8],
) {
    let mut page = [0; LONGEST_PAGE];
    let page = &mut page[..Layout::<S>::PAGE];
    page.copy_from_slice(&ram[of.index.ram..][..Layout::<S>::PAGE]);
    write_filters(items, of, ram, page);
    for group in part {
        let start = start + group * 16 * S;
        data[start..][..S].copy_from_slice(&page[group * S..][..S]);
        spare[start / S] = PROGRAMMED;
    }
}

/// Programs these sectors of a set.
#[inline(never)]
fn program_set<const S: usize>(
    index: &Index<S>,
    set: Set,
    part: Range<usize>,
    data: &mut [u8],
    spare: &mut [u8],
) {
    let start = set.start(index);
    let sectors = set.sectors::<S>();
    if part == (0..sectors) {
        rebuild(index, set.number, start, data);
    } else {
        // A set is built whole: what a cut leaves out is put back.
        let before = data[start..][..sectors * S].to_vec();
        rebuild(index, set.number, start, data);
        let all = &mut data[start..][..sectors * S];
        all[..part.start * S].copy_from_slice(&before[..part.start * S]);
        all[part.end * S..].copy_from_slice(&before[part.end * S..]);
    }
    spare[start / S..][part].fill(PROGRAMMED);
}

/// Erases these of L1 and the blocks of the earlier set.
fn erase_earlier<const S: usize>(
    index: &Index<S>,
    set: Set,
    part: Range<usize>,
    data: &mut [u8],
    spare: &mut [u8],
) {
    if part.start == 0 {
        erase::<S>(index.l1, 1, data, spare);
    }
    let blocks = part.start.max(1) - 1..part.end - 1;
    let (start, _) = set.earlier::<S>(index);
    erase::<S>(
        start + blocks.start * Layout::<S>::BLOCK,
        blocks.len(),
        data,
        spare,
    );
}

pub fn erase<const S: usize>(start: usize, blocks: usize, data: &mut [u8], spare: &mut [u8]) {
    let bytes = blocks * Layout::<S>::BLOCK;
    data[start..][..bytes].fill(ERASED);
    spare[start / S..][..bytes / S].fill(ERASED);
}

/// The finished RAM but for filters: new items in their places, zeros for pages that were programmed and for the work page, and the header.
#[inline(always)]
fn finish<const S: usize>(items: &Items, ram: &mut [u8]) {
    if let Some(deletion) = &items.deletion {
        finish_item::<S, DELETION>(deletion, ram);
    }
    if let Some(record) = &items.record {
        finish_item::<S, RECORD>(record, ram);
    }
    if let Some(entry) = &items.entry {
        finish_item::<S, ENTRY>(entry, ram);
    }
    ram[Layout::<S>::RAM_WORK..][..Layout::<S>::PAGE].fill(0);
    store_state(items.next, ram);
}

#[inline(always)]
fn finish_item<const S: usize, const N: usize>(item: &Item<N>, ram: &mut [u8]) {
    let page = &mut ram[item.ram..][..Layout::<S>::PAGE];
    match item.fills {
        Some(_) => page.fill(0),
        None => page[item.place..][..N].copy_from_slice(&item.bytes),
    }
}

/// The new filters in RAM; zeros after a flush.
#[inline(never)]
fn finish_filters<const S: usize>(items: &Items, of: &FilterPlan<S>, ram: &mut [u8]) {
    let (pages, filters) = ram.split_at_mut(of.index.ram);
    let filters = &mut filters[..Layout::<S>::PAGE];
    match of.flush {
        Some(_) => filters.fill(0),
        None => write_filters(items, of, pages, filters),
    }
}

/// The filters of a page of items, RAM's with the new one at its end, into a page of filters.
fn write_filters<const S: usize>(items: &Items, of: &FilterPlan<S>, ram: &[u8], filters: &mut [u8]) {
    let hash_count = items.next.hash_count;
    match (of.filters, &items.entry, &items.deletion) {
        (Filters::Keys, Some(entry), _) => {
            let (all, _) = ram[entry.ram..][..Layout::<S>::PAGE].as_chunks();
            for_hash_count!(hash_count, K => write_filter::<S, K, ENTRY>(of.first, all, &entry.bytes, filters));
        }
        (Filters::Deletions, _, Some(deletion)) => {
            let (all, _) = ram[deletion.ram..][..Layout::<S>::PAGE].as_chunks();
            let (older, newer) = all.split_at(Layout::<S>::DELETIONS / 2);
            let middle = &older[older.len() - 1];
            for_hash_count!(hash_count, K => {
                write_filter::<S, K, DELETION>(of.first, older, middle, filters);
                write_filter::<S, K, DELETION>(of.first + 1, newer, &deletion.bytes, filters);
            });
        }
        // There is an item where its page is filled.
        _ => {}
    }
}

/// The filter of the first numbers of some items, `last` in place of their last, replaces what its place held.
fn write_filter<const S: usize, const K: usize, const ITEM: usize>(
    filter: usize,
    items: &[[u8; ITEM]],
    last: &[u8; ITEM],
    filters: &mut [u8],
) {
    let slot = filter % FILTERS_PER_FLUSH;
    let filters = &mut filters[..Layout::<S>::PAGE];
    for sector in filters.chunks_exact_mut(S) {
        sector[slot * S / 8..][..S / 8].fill(0);
    }
    for item in items[..items.len() - 1].iter().chain([last]) {
        let number = u32::from_le_bytes([item[0], item[1], item[2], item[3]]);
        for position in positions::<S, K>(number) {
            let sector = position / S * S;
            filters[sector + (slot * S + position % S) / 8] |= 1 << (position % 8);
        }
    }
}
