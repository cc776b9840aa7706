//! Walks over filters, newest first. A place has K rows of bytes, one for each position of the key; a filter
//! has w neighbouring bits in each row, and passes if its bit of the position is set in all of them.
//!
//! Whether a filter passes is as good as random, and a branch that cannot be foreseen costs as much as testing
//! several filters. So each walk puts up to 64 filters into one word without a branch, and then visits the bits set.
//! `open` gets the filters that pass, counted from the row's first; the walk goes on until it breaks.
//!
//! Rows are made and read by plain loops: the compiler unrolls these and sees that all rows are of one length. `map` and
//! `fold` leave tests of bounds, up to a tenth of a lookup's instructions.

use crate::bits::squeeze;
use std::ops::ControlFlow::{self, Continue};
use std::ops::Range;

/// One row for each position of the key, all of one length.
pub type Rows<'a, const K: usize> = [&'a [u8]; K];

const WORD: usize = 8;

/// Rows that `bytes` reads of every filter. It reads the others of those that pass here, one in four or fewer.
const READ_OF_ALL: usize = 3;

/// Filters of 2^width_log bits; `places` are the positions' bits within a filter's bits.
#[inline(always)]
pub fn filters<const K: usize, B>(
    rows: Rows<K>,
    places: [usize; K],
    width_log: u32,
    open: impl FnMut(usize) -> ControlFlow<B>,
) -> ControlFlow<B> {
    match width_log {
        0 => bits(rows, open),
        1 => fields::<2, K, _>(rows, places, open),
        2 => fields::<4, K, _>(rows, places, open),
        3 => fields::<8, K, _>(rows, places, open),
        4 => fields::<16, K, _>(rows, places, open),
        5 => bytes::<4, K, _>(rows, places, open),
        6 => bytes::<8, K, _>(rows, places, open),
        7 => bytes::<16, K, _>(rows, places, open),
        8 => bytes::<32, K, _>(rows, places, open),
        _ => bytes::<64, K, _>(rows, places, open),
    }
}

/// Filters of one bit: a word of each row has 64. The rows are whole words.
#[inline(always)]
pub fn bits<const K: usize, B>(
    rows: Rows<K>,
    mut open: impl FnMut(usize) -> ControlFlow<B>,
) -> ControlFlow<B> {
    let rows: [&[[u8; WORD]]; K] = chunks(rows);
    for at in (0..rows[0].len()).rev() {
        let mut passed = u64::MAX;
        for row in rows {
            passed &= word(&row[at]);
        }
        each(passed, |bit| open(at * 64 + bit))?;
    }
    Continue(())
}

/// Filters of W = 2 to 16 bits: 64/W in a word of each row. The rows are whole words.
#[inline(always)]
fn fields<const W: usize, const K: usize, B>(
    rows: Rows<K>,
    places: [usize; K],
    mut open: impl FnMut(usize) -> ControlFlow<B>,
) -> ControlFlow<B> {
    let rows: [&[[u8; WORD]]; K] = chunks(rows);
    let mut above = rows[0].len();
    while above > 0 {
        let first = (above - 1) / W * W;
        let mut passed = 0;
        for at in (first..above).rev() {
            let mut all = u64::MAX;
            for i in 0..K {
                all &= word(&rows[i][at]) >> places[i];
            }
            passed = passed << (64 / W) | squeeze(all, 1, W as u32);
        }
        each(passed, |bit| open(first * (64 / W) + bit))?;
        above = first;
    }
    Continue(())
}

/// Filters of W bytes, one at a time. The remainders tell the compiler that the places are inside.
#[inline(always)]
pub fn bytes<const W: usize, const K: usize, B>(
    rows: Rows<K>,
    places: [usize; K],
    mut open: impl FnMut(usize) -> ControlFlow<B>,
) -> ControlFlow<B> {
    let rows: [&[[u8; W]]; K] = chunks(rows);
    let mut above = rows[0].len();
    while above > 0 {
        let first = (above - 1) / 64 * 64;
        let mut group = rows;
        for row in &mut group {
            *row = &row[first..above];
        }
        let mut passed = 0;
        for at in (0..above - first).rev() {
            let bits = conjunction(group, places, at, 0..K.min(READ_OF_ALL));
            passed = passed << 1 | u64::from(bits == 0xFF);
        }
        each(passed, |bit| {
            match conjunction(group, places, bit, READ_OF_ALL..K) {
                0xFF => open(first + bit),
                _ => Continue(()),
            }
        })?;
        above = first;
    }
    Continue(())
}

/// Of some rows: 0xFF if filter `at` has all their bits.
#[inline(always)]
fn conjunction<const W: usize, const K: usize>(
    rows: [&[[u8; W]]; K],
    places: [usize; K],
    at: usize,
    which: Range<usize>,
) -> u8 {
    let mut all = 0xFF;
    for i in which {
        all &= rows[i][at][places[i] / 8 % W] | !(1 << (places[i] % 8));
    }
    all
}

/// The bits that are set, highest first.
#[inline(always)]
fn each<B>(mut word: u64, mut visit: impl FnMut(usize) -> ControlFlow<B>) -> ControlFlow<B> {
    while word != 0 {
        let bit = word.ilog2();
        word ^= 1 << bit;
        visit(bit as usize)?;
    }
    Continue(())
}

/// The rows in parts of N bytes, all as many as the first has: no test of a bound is left in a loop over them.
#[inline(always)]
fn chunks<'a, const N: usize, const K: usize>(rows: Rows<'a, K>) -> [&'a [[u8; N]]; K] {
    let mut chunks: [&[[u8; N]]; K] = [&[]; K];
    chunks[0] = rows[0].as_chunks().0;
    for i in 1..K {
        chunks[i] = &rows[i].as_chunks().0[..chunks[0].len()];
    }
    chunks
}

#[inline(always)]
fn word(bytes: &[u8; WORD]) -> u64 {
    u64::from_le_bytes(*bytes)
}
