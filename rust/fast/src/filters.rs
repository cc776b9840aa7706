//! The filters of an index, newest first, place by place: RAM's page, L1, the newest set, full sets.

use crate::layout::{Index, Layout, FILTERS_PER_FLUSH, FILTERS_PER_ROUND};
use crate::walk;
use std::ops::ControlFlow::{self, Continue};

/// Of so many filters, `open` gets those that have the bits of all positions, until it breaks. PAGE is 4S.
#[inline(always)]
pub fn passing<const S: usize, const PAGE: usize, const K: usize, B>(
    index: &Index<S>,
    data: &[u8],
    ram: &[u8],
    positions: [usize; K],
    filters: usize,
    mut open: impl FnMut(usize) -> ControlFlow<B>,
) -> ControlFlow<B> {
    not_flushed::<S, K, B>(&ram[index.ram..], positions, filters, &mut open)?;
    level_one::<S, K, B>(&data[index.l1..], positions, filters, &mut open)?;
    newest_set::<S, PAGE, K, B>(index, data, positions, filters, &mut open)?;
    full_sets::<S, PAGE, K, B>(&data[index.full_sets..], positions, filters, open)
}

/// Filters in RAM: eight in each sector, S bits wide, a sector for each group of S positions.
#[inline(always)]
fn not_flushed<const S: usize, const K: usize, B>(
    page: &[u8],
    positions: [usize; K],
    filters: usize,
    mut open: impl FnMut(usize) -> ControlFlow<B>,
) -> ControlFlow<B> {
    let count = filters % FILTERS_PER_FLUSH;
    let first = filters - count;
    let row = &page[positions[0] / S * S..][..count * S / 8];
    let places = positions.map(|position| position % S);
    let open = |filter| open(first + filter);
    if S == 16 {
        // Not whole words.
        walk::bytes::<2, K, _>([row; K], places, open)
    } else {
        walk::filters([row; K], places, S.ilog2(), open)
    }
}

/// Filters of the present round, S bits wide. The sixteen sectors of a group of S positions lie in a row,
/// in the order of the flushes.
#[inline(always)]
fn level_one<const S: usize, const K: usize, B>(
    block: &[u8],
    positions: [usize; K],
    filters: usize,
    mut open: impl FnMut(usize) -> ControlFlow<B>,
) -> ControlFlow<B> {
    let first = filters - filters % FILTERS_PER_ROUND;
    let count = filters % FILTERS_PER_ROUND / FILTERS_PER_FLUSH * FILTERS_PER_FLUSH;
    let row = &block[positions[0] / S * 16 * S..][..count * S / 8];
    let places = positions.map(|position| position % S);
    walk::filters([row; K], places, S.ilog2(), |filter| open(first + filter))
}

/// The newest set, if this cycle has one: all filters of the cycle's earlier rounds.
#[inline(always)]
fn newest_set<const S: usize, const PAGE: usize, const K: usize, B>(
    index: &Index<S>,
    data: &[u8],
    positions: [usize; K],
    filters: usize,
    mut open: impl FnMut(usize) -> ControlFlow<B>,
) -> ControlFlow<B> {
    let first = filters - filters % Layout::<S>::CYCLE;
    let rounds = (filters - first) / FILTERS_PER_ROUND;
    if rounds == 0 {
        return Continue(());
    }
    let number = rounds + 1;
    let width_log = Layout::<S>::width_log(number);
    let count = rounds * FILTERS_PER_ROUND;
    let pages = &data[index.set(number, 0)..];
    let mut rows = [&[] as &[u8]; K];
    let mut places = positions;
    for i in 0..K {
        let page = &pages[(positions[i] >> width_log) * PAGE..][..PAGE];
        rows[i] = &page[..count << width_log >> 3];
        places[i] &= (1 << width_log) - 1;
    }
    walk::filters(rows, places, width_log, |filter| open(first + filter))
}

/// Full sets: one bit for a filter, so that a position has a page of its own.
#[inline(always)]
fn full_sets<const S: usize, const PAGE: usize, const K: usize, B>(
    sets: &[u8],
    positions: [usize; K],
    filters: usize,
    mut open: impl FnMut(usize) -> ControlFlow<B>,
) -> ControlFlow<B> {
    for set in (0..filters / Layout::<S>::CYCLE).rev() {
        let pages = &sets[set * Layout::<S>::SIDE..][..Layout::<S>::SIDE];
        let mut rows = [&[] as &[u8]; K];
        for i in 0..K {
            rows[i] = &pages[positions[i] * PAGE..][..PAGE];
        }
        walk::bits(rows, |filter| open(set * Layout::<S>::CYCLE + filter))?;
    }
    Continue(())
}
