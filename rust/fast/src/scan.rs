//! Passes over numbers and keys. A loop without an exit is vector code (four numbers a comparison with SSE2),
//! so exits are between blocks only.

use crate::layout::{DELETION, ENTRY};

/// Keys compared before an exit: a page of S = 128. The exact entry is looked for in one block only.
const KEYS: usize = 64;
/// Deletions compared before an exit. Live records are the rule, so that a long block costs little.
const NUMBERS: usize = 256;

/// Is the number among the four-byte numbers?
#[inline]
pub fn contains(numbers: &[u8], wanted: u32) -> bool {
    let (numbers, _) = numbers.as_chunks::<DELETION>();
    let (blocks, rest) = numbers.as_chunks::<NUMBERS>();
    blocks.iter().any(|block| has_number(block, wanted)) || has_number(rest, wanted)
}

#[inline(always)]
fn has_number(numbers: &[[u8; DELETION]], wanted: u32) -> bool {
    numbers.iter().fold(false, |found, &number| {
        found | (u32::from_le_bytes(number) == wanted)
    })
}

/// The last entry with the key.
#[inline(always)]
pub fn last_with_key(entries: &[[u8; ENTRY]], key: u32) -> Option<usize> {
    let (rest, blocks) = entries.as_rchunks::<KEYS>();
    for (i, block) in blocks.iter().enumerate().rev() {
        if has_key(block, key) {
            return exact(block, key).map(|at| rest.len() + i * KEYS + at);
        }
    }
    if has_key(rest, key) {
        return exact(rest, key);
    }
    None
}

#[inline(always)]
fn has_key(entries: &[[u8; ENTRY]], key: u32) -> bool {
    entries
        .iter()
        .fold(false, |found, entry| found | (key_of(entry) == key))
}

/// Out of line: few opened pages have the key.
#[inline(never)]
fn exact(entries: &[[u8; ENTRY]], key: u32) -> Option<usize> {
    entries.iter().rposition(|entry| key_of(entry) == key)
}

#[inline(always)]
fn key_of(entry: &[u8; ENTRY]) -> u32 {
    u64::from_le_bytes(*entry) as u32
}

/// The record number of an entry.
#[inline(always)]
pub fn number_of(entry: &[u8; ENTRY]) -> u32 {
    (u64::from_le_bytes(*entry) >> 32) as u32
}
