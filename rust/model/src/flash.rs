//! The chip: program a sector, erase a block, freshness; and numbers in bytes.

use crate::geometry::SECTORS_PER_BLOCK;

const PROGRAMMED: u8 = 0x00;
const ERASED: u8 = 0xFF;

/// "A mark is now fresh if five or more of its eight bits are one, programmed otherwise." Document 02, request 3.
pub fn is_fresh(spare: &[u8], sector: usize) -> bool {
    spare[sector].count_ones() >= 5
}

/// "Programming a sector writes its S cells and sets its mark to 00." The length of `bytes` is S.
pub fn program_sector(data: &mut [u8], spare: &mut [u8], sector: usize, bytes: &[u8]) {
    let start = sector * bytes.len();
    data[start..start + bytes.len()].copy_from_slice(bytes);
    spare[sector] = PROGRAMMED;
}

/// "Erasing a block sets its cells and marks to FF."
pub fn erase_block(data: &mut [u8], spare: &mut [u8], sector_size: usize, block: usize) {
    let block_size = SECTORS_PER_BLOCK * sector_size;
    data[block * block_size..(block + 1) * block_size].fill(ERASED);
    spare[block * SECTORS_PER_BLOCK..(block + 1) * SECTORS_PER_BLOCK].fill(ERASED);
}

/// "Multi-byte numbers are little-endian."
pub fn read_number(bytes: &[u8], offset: usize) -> u32 {
    u32::from_le_bytes([
        bytes[offset],
        bytes[offset + 1],
        bytes[offset + 2],
        bytes[offset + 3],
    ])
}

pub fn write_number(bytes: &mut [u8], offset: usize, number: u32) {
    bytes[offset..offset + 4].copy_from_slice(&number.to_le_bytes());
}

/// "Bit 0 is the lowest bit of a byte."
pub fn read_bit(bytes: &[u8], index: usize) -> bool {
    bytes[index / 8] >> (index % 8) & 1 == 1
}

pub fn set_bit(bytes: &mut [u8], index: usize) {
    bytes[index / 8] |= 1 << (index % 8);
}
