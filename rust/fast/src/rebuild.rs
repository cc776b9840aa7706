//! A set out of L1 and the earlier set, straight from flash to flash.
//!
//! Page p of a set has bits pw to pw+w-1 of each filter, oldest filter first. Of the earlier set with the same w that
//! is a copy of its page's bytes; of one with 2w it is every other field of page p/2. L1 has the last 128 filters,
//! S bits each, in four rows: a field of each filter is taken.

use crate::bits::{squeeze, transpose};
use crate::layout::{Index, Layout, FILTERS_PER_ROUND};

/// The earlier set: its pages, and what a page of the new set takes from them.
struct Earlier<'a> {
    pages: &'a [u8],
    /// Is w half of what it was?
    halved: bool,
    width_log: u32,
    /// Bytes of a new page.
    bytes: usize,
}

/// Builds set `number` of an index at `start`. The bytes of its pages are all that changes.
pub fn rebuild<const S: usize>(index: &Index<S>, number: usize, start: usize, data: &mut [u8]) {
    let (before, from_new) = data.split_at_mut(start);
    let (new, behind) = from_new.split_at_mut(Layout::<S>::set_bytes(number));
    let l1 = &before[index.l1..][..Layout::<S>::BLOCK];
    let width_log = Layout::<S>::width_log(number);
    let earlier = Earlier {
        pages: earlier_pages(index, number, start + new.len(), before, behind),
        halved: number > 2 && Layout::<S>::width_log(number - 1) != width_log,
        width_log,
        bytes: ((number - 2) * FILTERS_PER_ROUND) << width_log >> 3,
    };
    match width_log {
        0 => narrow::<S, 1>(l1, &earlier, new),
        1 => narrow::<S, 2>(l1, &earlier, new),
        2 => narrow::<S, 4>(l1, &earlier, new),
        3 => wide::<S, 1>(l1, &earlier, new),
        4 => wide::<S, 2>(l1, &earlier, new),
        5 => wide::<S, 4>(l1, &earlier, new),
        6 => wide::<S, 8>(l1, &earlier, new),
        _ => wide::<S, 16>(l1, &earlier, new),
    }
}

/// The pages of the set before set `number`, none of set 2: they lie before the new set or behind its end.
fn earlier_pages<'a, const S: usize>(
    index: &Index<S>,
    number: usize,
    end: usize,
    before: &'a [u8],
    behind: &'a [u8],
) -> &'a [u8] {
    if number == 2 {
        return &[];
    }
    let start = index.set(number - 1, 0);
    let bytes = Layout::<S>::set_bytes(number - 1);
    match start.checked_sub(end) {
        Some(offset) => &behind[offset..][..bytes],
        None => &before[start..][..bytes],
    }
}

/// w = 8 RUN: a page has a run of bytes of each filter.
fn wide<const S: usize, const RUN: usize>(l1: &[u8], earlier: &Earlier, new: &mut [u8]) {
    for (page, new) in new.chunks_exact_mut(Layout::<S>::PAGE).enumerate() {
        let (old, last, rest) = parts(new, earlier.bytes, 16 * 8 * RUN);
        earlier.take::<S>(page, old);
        let (filters, offset) = filters_of::<S>(l1, page * RUN);
        let (runs, _) = last.as_chunks_mut::<RUN>();
        for (run, filter) in runs.iter_mut().zip(filters.chunks_exact(S / 8)) {
            run.copy_from_slice(&filter[offset..][..RUN]);
        }
        rest.fill(0);
    }
}

/// w = W = 1, 2 or 4: 8/W pages share a byte of each filter.
fn narrow<const S: usize, const W: usize>(l1: &[u8], earlier: &Earlier, new: &mut [u8]) {
    let together = 8 / W;
    for (byte, pages) in new.chunks_exact_mut(together * Layout::<S>::PAGE).enumerate() {
        let (filters, offset) = filters_of::<S>(l1, byte);
        let fields = fields::<S, W>(filters, offset);
        for (i, new) in pages.chunks_exact_mut(Layout::<S>::PAGE).enumerate() {
            let (old, last, rest) = parts(new, earlier.bytes, 16 * W);
            earlier.take::<S>(byte * together + i, old);
            last.copy_from_slice(&fields[i * 16 * W..][..16 * W]);
            rest.fill(0);
        }
    }
}

/// The parts of a new page: the earlier filters', the last round's, and the rest.
fn parts(page: &mut [u8], earlier: usize, last: usize) -> (&mut [u8], &mut [u8], &mut [u8]) {
    let (old, page) = page.split_at_mut(earlier);
    let (last, rest) = page.split_at_mut(last);
    (old, last, rest)
}

/// The 128 filters' parts that hold byte `byte` of a filter, and its place in them: L1 has four groups
/// of S/8 bytes, the parts of a group in a row.
fn filters_of<const S: usize>(l1: &[u8], byte: usize) -> (&[u8], usize) {
    (&l1[byte / (S / 8) * 16 * S..][..16 * S], byte % (S / 8))
}

/// One byte of each of the 128 filters, as the 8/W pages have it: 16 W bytes each, eight filters at a time.
fn fields<const S: usize, const W: usize>(filters: &[u8], offset: usize) -> [u8; 128] {
    let mut fields = [0; 128];
    for (flush, eight) in filters.chunks_exact(S).enumerate() {
        let split = split::<W>(column::<S>(eight, offset)).to_le_bytes();
        for (i, field) in split.chunks_exact(W).enumerate() {
            fields[i * 16 * W + flush * W..][..W].copy_from_slice(field);
        }
    }
    fields
}

/// A byte of each of eight filters.
#[inline(always)]
fn column<const S: usize>(eight: &[u8], offset: usize) -> u64 {
    let mut bytes = [0; 8];
    for (byte, filter) in bytes.iter_mut().zip(eight.chunks_exact(S / 8)) {
        *byte = filter[offset];
    }
    u64::from_le_bytes(bytes)
}

/// The first W bits of each byte, then the second ones, and so on.
#[inline(always)]
fn split<const W: usize>(bytes: u64) -> u64 {
    if W == 1 {
        return transpose(bytes);
    }
    (0..8 / W).fold(0, |split, i| {
        split | squeeze(bytes >> (i * W), W as u32, 8) << (i * 8 * W)
    })
}

impl Earlier<'_> {
    /// What page `page` of the new set has of the earlier filters.
    #[inline(always)]
    fn take<const S: usize>(&self, page: usize, new: &mut [u8]) {
        if self.bytes == 0 {
            // Set 2.
            return;
        }
        if !self.halved {
            new.copy_from_slice(&self.pages[page * Layout::<S>::PAGE..][..self.bytes]);
            return;
        }
        let old = &self.pages[page / 2 * Layout::<S>::PAGE..][..2 * self.bytes];
        let half = page % 2;
        match self.width_log {
            0 => merge::<1>(old, half, new),
            1 => merge::<2>(old, half, new),
            2 => merge::<4>(old, half, new),
            3 => pick::<1, 2>(old, half, new),
            4 => pick::<2, 4>(old, half, new),
            5 => pick::<4, 8>(old, half, new),
            _ => pick::<8, 16>(old, half, new),
        }
    }
}

/// Every other field of W = 1, 2 or 4 bits: two bytes become one. Vector code, eight pairs a turn.
fn merge<const W: u32>(old: &[u8], half: usize, new: &mut [u8]) {
    let shift = half as u32 * W;
    for (new, &pair) in new.iter_mut().zip(old.as_chunks().0) {
        let mut x = u16::from_le_bytes(pair) >> shift;
        if W == 1 {
            x = x & 0x5555 | (x & 0x5555) >> 1;
        }
        if W <= 2 {
            x = x & 0x3333 | (x & 0x3333) >> 2;
        }
        *new = (x & 0x0F0F | (x & 0x0F0F) >> 4) as u8;
    }
}

/// Every other run of RUN bytes; TWO is twice RUN.
fn pick<const RUN: usize, const TWO: usize>(old: &[u8], half: usize, new: &mut [u8]) {
    let (new, _) = new.as_chunks_mut::<RUN>();
    for (new, two) in new.iter_mut().zip(old.as_chunks::<TWO>().0) {
        new.copy_from_slice(&two[half * RUN..][..RUN]);
    }
}
