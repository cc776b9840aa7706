//! What a change appends, and the chip operations that follow from it: a list of rows of sectors and blocks.

use crate::layout::{
    Index, Layout, DELETION, ENTRY, FILTERS_PER_DELETION_PAGE, FILTERS_PER_FLUSH, FILTERS_PER_ROUND, RECORD,
};
use model::State;
use std::ops::Range;

/// A spare byte with so many ones is fresh.
const FRESH_ONES: u32 = 5;

/// Sectors of a page, and of a flush.
pub const FOUR: usize = 4;

/// A record as its four numbers: level key, moves, goal, free word.
pub type Record = [u32; 4];

/// What a change appends: a deletion (of a record number), a record or both.
#[derive(Clone, Copy)]
pub struct Edit {
    pub deleted: Option<u32>,
    pub inserted: Option<Record>,
}

/// What one call appends.
#[derive(Clone, Copy)]
pub struct Items {
    pub deletion: Option<Item<DELETION>>,
    pub record: Option<Item<RECORD>>,
    pub entry: Option<Item<ENTRY>>,
    /// The state after the call.
    pub next: State,
}

/// What one call appends, and what its full pages do.
pub struct Plan<'a, const S: usize> {
    pub items: Items,
    pub deletion_filters: Option<FilterPlan<'a, S>>,
    pub key_filters: Option<FilterPlan<'a, S>>,
}

/// An item of N bytes.
#[derive(Clone, Copy)]
pub struct Item<const N: usize> {
    pub bytes: [u8; N],
    /// First byte of its page in RAM, and its own in that page.
    pub ram: usize,
    pub place: usize,
    /// First byte in `data` of the page that it fills; it is the page's last then.
    pub fills: Option<usize>,
}

/// Filters over the keys of entries or over deleted record numbers.
#[derive(Clone, Copy)]
pub enum Filters {
    Keys,
    Deletions,
}

/// What the filters of a page do in their index.
pub struct FilterPlan<'a, const S: usize> {
    pub filters: Filters,
    pub index: &'a Index<S>,
    /// The number of the page's first filter.
    pub first: usize,
    /// The first of a flush's four sectors; the next ones lie 16 sectors further each.
    pub flush: Option<usize>,
    pub set: Option<Set>,
}

/// Set `number` of those that are built, with `full_sets` full sets before it.
#[derive(Clone, Copy)]
pub struct Set {
    pub number: usize,
    pub full_sets: usize,
}

/// A row of operations. Places are first bytes in `data`.
pub enum Row<'a, const S: usize> {
    /// A page gets one of RAM's, with its last item.
    Page {
        start: usize,
        ram: usize,
        last: &'a [u8],
    },
    Flush {
        start: usize,
        plan: &'a FilterPlan<'a, S>,
    },
    Set {
        index: &'a Index<S>,
        set: Set,
    },
    /// L1, then the blocks of the set before this one.
    Erases {
        index: &'a Index<S>,
        set: Set,
    },
}

impl Items {
    #[inline(always)]
    pub fn new<const S: usize>(layout: &Layout<S>, state: State, edit: Edit) -> Self {
        let (records, deletions) = (state.records as usize, state.deletions as usize);
        let deletion = edit.deleted.map(|number| {
            let bytes = number.to_le_bytes();
            Item::new::<S>(bytes, deletions, Layout::<S>::RAM_DELETIONS, layout.deletions)
        });
        let record = edit.inserted.map(|record| {
            let mut bytes = [0; RECORD];
            let (words, _) = bytes.as_chunks_mut();
            for (word, number) in words.iter_mut().zip(record) {
                *word = number.to_le_bytes();
            }
            Item::new::<S>(bytes, records, 0, 0)
        });
        let entry = edit.inserted.map(|record| {
            let bytes = (u64::from(record[0]) | u64::from(state.records) << 32).to_le_bytes();
            Item::new::<S>(bytes, records, Layout::<S>::RAM_ENTRIES, layout.entries)
        });
        let next = State {
            records: state.records + u32::from(record.is_some()),
            deletions: state.deletions + u32::from(deletion.is_some()),
            ..state
        };
        Items {
            deletion,
            record,
            entry,
            next,
        }
    }

    /// Is a page filled? A page of entries is so only together with one of records.
    #[inline(always)]
    pub fn fill_a_page(&self) -> bool {
        self.deletion.is_some_and(|item| item.fills.is_some())
            || self.record.is_some_and(|item| item.fills.is_some())
    }
}

impl<'a, const S: usize> Plan<'a, S> {
    pub fn new(layout: &'a Layout<S>, items: Items) -> Self {
        // A page is full after this call.
        let deletion_pages = items.next.deletions as usize / Layout::<S>::DELETIONS;
        let entry_pages = items.next.records as usize / Layout::<S>::ENTRIES;
        let filled = items.deletion.and_then(|item| item.fills);
        let deletion_filters = filled.map(|_| {
            FilterPlan::new(
                Filters::Deletions,
                &layout.deletion_index,
                FILTERS_PER_DELETION_PAGE * deletion_pages,
            )
        });
        let filled = items.entry.and_then(|item| item.fills);
        let key_filters = filled.map(|_| FilterPlan::new(Filters::Keys, &layout.key_index, entry_pages));
        Plan {
            items,
            deletion_filters,
            key_filters,
        }
    }

    /// The operations, row by row, in their order.
    #[inline(always)]
    fn rows(&self, mut visit: impl FnMut(Row<S>)) {
        let Items {
            deletion,
            record,
            entry,
            ..
        } = &self.items;
        if let Some(page) = deletion.as_ref().and_then(Item::page) {
            visit(page);
        }
        if let Some(filters) = &self.deletion_filters {
            filters.rows(&mut visit);
        }
        if let Some(page) = record.as_ref().and_then(Item::page) {
            visit(page);
        }
        if let Some(page) = entry.as_ref().and_then(Item::page) {
            visit(page);
        }
        if let Some(filters) = &self.key_filters {
            filters.rows(&mut visit);
        }
    }

    /// How many operations there are.
    pub fn operations(&self) -> usize {
        let mut count = 0;
        self.rows(|row| count += row.operations());
        count
    }

    /// Are all sectors to be programmed fresh?
    pub fn fresh(&self, spare: &[u8]) -> bool {
        let mut fresh = true;
        self.rows(|row| fresh = fresh && row.fresh(spare));
        fresh
    }

    /// How many operations count as done: all up to the last sector that is programmed.
    pub fn done(&self, spare: &[u8]) -> usize {
        let (mut before, mut done) = (0, 0);
        self.rows(|row| {
            if let Some(last) = row.last_programmed(spare) {
                done = before + last + 1;
            }
            before += row.operations();
        });
        done
    }

    /// The operations from `from` on and before `to`: of each row that has some, which ones.
    pub fn part(&self, from: usize, to: usize, mut visit: impl FnMut(Row<S>, Range<usize>)) {
        let mut before = 0;
        self.rows(|row| {
            let count = row.operations();
            let of_row = |at: usize| at.saturating_sub(before).min(count);
            let part = of_row(from)..of_row(to);
            before += count;
            if !part.is_empty() {
                visit(row, part);
            }
        });
    }
}

impl<const N: usize> Item<N> {
    /// Item `number` of an area, with its pages' first bytes in RAM and in `data`.
    #[inline(always)]
    fn new<const S: usize>(bytes: [u8; N], number: usize, ram: usize, area: usize) -> Self {
        let per_page = Layout::<S>::PAGE / N;
        let (page, place) = (number / per_page, number % per_page);
        Item {
            bytes,
            ram,
            place: place * N,
            fills: (place + 1 == per_page).then_some(area + page * Layout::<S>::PAGE),
        }
    }

    fn page<const S: usize>(&self) -> Option<Row<'_, S>> {
        self.fills.map(|start| Row::Page {
            start,
            ram: self.ram,
            last: &self.bytes,
        })
    }
}

impl<'a, const S: usize> FilterPlan<'a, S> {
    /// Of an index that has so many filters with the new ones.
    fn new(filters: Filters, index: &'a Index<S>, count: usize) -> Self {
        let per_page = match filters {
            Filters::Keys => 1,
            Filters::Deletions => FILTERS_PER_DELETION_PAGE,
        };
        let full = |of: usize| count.is_multiple_of(of).then_some(count);
        FilterPlan {
            first: count - per_page,
            filters,
            index,
            flush: full(FILTERS_PER_FLUSH).map(|count| {
                let flush = (count - 1) % FILTERS_PER_ROUND / FILTERS_PER_FLUSH;
                index.l1 + flush * S
            }),
            set: full(FILTERS_PER_ROUND).map(|count| {
                let rounds = count / FILTERS_PER_ROUND - 1;
                Set {
                    number: rounds % Layout::<S>::ROUNDS + 2,
                    full_sets: rounds / Layout::<S>::ROUNDS,
                }
            }),
        }
    }

    #[inline(always)]
    fn rows(&self, visit: &mut impl FnMut(Row<S>)) {
        let index = self.index;
        if let Some(start) = self.flush {
            visit(Row::Flush { start, plan: self });
        }
        if let Some(set) = self.set {
            visit(Row::Set { index, set });
            visit(Row::Erases { index, set });
        }
    }
}

impl Set {
    pub fn start<const S: usize>(self, index: &Index<S>) -> usize {
        index.set(self.number, self.full_sets)
    }

    pub fn sectors<const S: usize>(self) -> usize {
        Layout::<S>::set_bytes(self.number) / S
    }

    /// The set that it takes the place of, if there is one: its first byte, and its blocks.
    pub fn earlier<const S: usize>(self, index: &Index<S>) -> (usize, usize) {
        let earlier = self.number - 1;
        match earlier {
            1 => (index.l1, 0),
            _ => (
                index.set(earlier, self.full_sets),
                Layout::<S>::set_bytes(earlier) / Layout::<S>::BLOCK,
            ),
        }
    }
}

impl<const S: usize> Row<'_, S> {
    fn operations(&self) -> usize {
        match self {
            Row::Page { .. } | Row::Flush { .. } => FOUR,
            Row::Set { set, .. } => set.sectors::<S>(),
            Row::Erases { index, set } => 1 + set.earlier::<S>(index).1,
        }
    }

    fn fresh(&self, spare: &[u8]) -> bool {
        match *self {
            Row::Page { start, .. } => all_fresh(&spare[start / S..][..FOUR]),
            Row::Flush { start, .. } => (0..FOUR).all(|i| is_fresh(spare[start / S + 16 * i])),
            Row::Set { index, set } => all_fresh(&spare[set.start(index) / S..][..set.sectors::<S>()]),
            Row::Erases { .. } => true,
        }
    }

    /// The last sector that is not fresh.
    fn last_programmed(&self, spare: &[u8]) -> Option<usize> {
        match *self {
            Row::Page { start, .. } => last_programmed(&spare[start / S..][..FOUR]),
            Row::Flush { start, .. } => (0..FOUR).rev().find(|i| !is_fresh(spare[start / S + 16 * i])),
            Row::Set { index, set } => last_programmed(&spare[set.start(index) / S..][..set.sectors::<S>()]),
            Row::Erases { .. } => None,
        }
    }
}

fn is_fresh(spare: u8) -> bool {
    spare.count_ones() >= FRESH_ONES
}

/// No exit before the end: vector code.
fn all_fresh(spare: &[u8]) -> bool {
    spare.iter().fold(true, |all, &byte| all & is_fresh(byte))
}

fn last_programmed(spare: &[u8]) -> Option<usize> {
    spare.iter().rposition(|&byte| !is_fresh(byte))
}
