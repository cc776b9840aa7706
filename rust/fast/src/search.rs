//! The search: RAM's entries newest first, then the full pages whose filter passes, newest first. Whether a record number is deleted is
//! looked up alike.

use crate::filters;
use crate::hash::{for_hash_count, positions};
use crate::layout::{Layout, DELETION, ENTRY, FILTERS_PER_DELETION_PAGE};
use crate::scan::{contains, last_with_key, number_of};
use model::State;
use std::ops::ControlFlow::{self, Break, Continue};

/// What ended a search before its last page.
#[derive(Clone, Copy, Debug, PartialEq, Eq)]
pub enum Ending {
    /// A live entry with this record number.
    Live(u32),
    /// The key with a record number of n or more.
    WrongRecordNumber,
}

/// How a search ended, `None` if nowhere, and the pages of entries and of deletions opened.
pub struct Found {
    pub ending: Option<Ending>,
    pub opened: u32,
    pub deletions_opened: u64,
}

type Step = ControlFlow<Ending>;

/// A search under way.
struct Search<'a, const S: usize, const PAGE: usize> {
    layout: &'a Layout<S>,
    data: &'a [u8],
    ram: &'a [u8],
    key: u32,
    records: u32,
    /// Full pages of entries; as arrays, for one test of a bound is left when a page is opened.
    pages: &'a [[u8; PAGE]],
    /// Full pages of deletions, and the numbers in RAM.
    deletion_pages: &'a [[u8; PAGE]],
    ram_deletions: &'a [u8],
    opened: u32,
    deletions_opened: u64,
}

#[inline(always)]
pub fn search<const S: usize>(layout: &Layout<S>, state: State, key: u32, data: &[u8], ram: &[u8]) -> Found {
    // A type cannot say 4S, so the page's length is written out. The compiler leaves one of these.
    macro_rules! with_page {
        ($page:literal) => {{
            let search = Search::<S, $page>::new(layout, state, key, data, ram);
            for_hash_count!(state.hash_count, K => search.found::<K>())
        }};
    }
    match S {
        16 => with_page!(64),
        32 => with_page!(128),
        64 => with_page!(256),
        128 => with_page!(512),
        256 => with_page!(1024),
        _ => with_page!(2048),
    }
}

impl<'a, const S: usize, const PAGE: usize> Search<'a, S, PAGE> {
    fn new(layout: &'a Layout<S>, state: State, key: u32, data: &'a [u8], ram: &'a [u8]) -> Self {
        let full_pages = state.records as usize / Layout::<S>::ENTRIES;
        let deletions = state.deletions as usize;
        let in_ram = deletions % Layout::<S>::DELETIONS;
        Search {
            layout,
            data,
            ram,
            key,
            records: state.records,
            pages: data[layout.entries..][..full_pages * PAGE].as_chunks().0,
            deletion_pages: data[layout.deletions..][..(deletions - in_ram) * DELETION]
                .as_chunks()
                .0,
            ram_deletions: &ram[Layout::<S>::RAM_DELETIONS..][..in_ram * DELETION],
            opened: 0,
            deletions_opened: 0,
        }
    }

    /// The search with K positions of the key.
    #[inline(never)]
    fn found<const K: usize>(mut self) -> Found {
        let ending = match self.run::<K>() {
            Break(ending) => Some(ending),
            Continue(()) => None,
        };
        Found {
            ending,
            opened: self.opened,
            deletions_opened: self.deletions_opened,
        }
    }

    fn run<const K: usize>(&mut self) -> Step {
        let Search {
            layout, data, ram, ..
        } = *self;
        let in_ram = self.records as usize % Layout::<S>::ENTRIES;
        let entries = &ram[Layout::<S>::RAM_ENTRIES..][..in_ram * ENTRY];
        self.entries::<K>(entries.as_chunks().0)?;

        let positions = positions::<S, K>(self.key);
        let count = self.pages.len();
        filters::passing::<S, PAGE, K, _>(&layout.key_index, data, ram, positions, count, |page| {
            self.open::<K>(page)
        })
    }

    #[inline(always)]
    fn open<const K: usize>(&mut self, page: usize) -> Step {
        self.opened += 1;
        let pages = self.pages;
        self.entries::<K>(pages[page].as_chunks().0)
    }

    #[inline(always)]
    fn entries<const K: usize>(&mut self, entries: &[[u8; ENTRY]]) -> Step {
        match last_with_key(entries, self.key) {
            Some(at) => self.judge::<K>(entries, at),
            None => Continue(()),
        }
    }

    /// From entry `at` downwards: a deleted entry does not end the search.
    #[inline(never)]
    fn judge<const K: usize>(&mut self, entries: &[[u8; ENTRY]], mut at: usize) -> Step {
        loop {
            let number = number_of(&entries[at]);
            if number >= self.records {
                return Break(Ending::WrongRecordNumber);
            }
            if !self.is_deleted::<K>(number) {
                return Break(Ending::Live(number));
            }
            match last_with_key(&entries[..at], self.key) {
                Some(below) => at = below,
                None => return Continue(()),
            }
        }
    }

    /// RAM's numbers first, then the pages of which a filter passes, newest first, until the number is met.
    #[inline]
    fn is_deleted<const K: usize>(&mut self, number: u32) -> bool {
        if contains(self.ram_deletions, number) {
            return true;
        }
        let pages = self.deletion_pages;
        if pages.is_empty() {
            return false;
        }
        let positions = positions::<S, K>(number);
        let index = &self.layout.deletion_index;
        let count = FILTERS_PER_DELETION_PAGE * pages.len();
        // A page has two filters, one after the other: it is opened once.
        let mut last = pages.len();
        let mut opened = 0;
        let step =
            filters::passing::<S, PAGE, K, ()>(index, self.data, self.ram, positions, count, |filter| {
                let page = filter / FILTERS_PER_DELETION_PAGE;
                if page == last {
                    return Continue(());
                }
                last = page;
                opened += 1;
                match contains(&pages[page], number) {
                    true => Break(()),
                    false => Continue(()),
                }
            });
        self.deletions_opened += opened;
        step.is_break()
    }
}
