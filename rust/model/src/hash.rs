//! FNV-1a and the positions of a key.

/// "Start 2166136261; for each byte, exclusive-or, then multiply by 16777619, keeping 32 bits."
pub fn fnv1a(bytes: &[u8]) -> u32 {
    let mut hash: u32 = 2166136261;
    for &byte in bytes {
        hash ^= u32::from(byte);
        hash = hash.wrapping_mul(16777619);
    }
    hash
}

/// "Hash j is FNV-1a over five bytes: j, then the key", the key's lowest byte first; from request 2 on
/// "h0 to hk".
fn key_hash(j: usize, key: u32) -> usize {
    let [a, b, c, d] = key.to_le_bytes();
    fnv1a(&[j as u8, a, b, c, d]) as usize
}

/// "(h0 mod 4) × S + (hj mod S)" for j = 1 to k; "they may coincide".
pub fn positions(sector_size: usize, hash_count: usize, key: u32) -> Vec<usize> {
    let first = (key_hash(0, key) % 4) * sector_size;
    (1..=hash_count)
        .map(|j| first + key_hash(j, key) % sector_size)
        .collect()
}
