//! FNV-1a of a key, several at once.

/// An expression compiled for each number K of hash functions, 1 to 8. Document 01's is tested first.
macro_rules! for_hash_count {
    ($count:expr, $K:ident => $body:expr) => {
        for_hash_count!(@ $count, $K, $body, 3 1 2 4 5 6 7)
    };
    (@ $count:expr, $K:ident, $body:expr, $($number:literal)+) => {
        match $count {
            $($number => {
                const $K: usize = $number;
                $body
            })+
            _ => {
                const $K: usize = 8;
                $body
            }
        }
    };
}
pub(crate) use for_hash_count;

/// The K positions of a key: (h0 mod 4) × S + (hj mod S) for j = 1 to K.
///
/// Only the low nine bits of a hash count, and they follow from the low bits alone (exclusive-or and product
/// carry nothing downwards), so 16 bits are enough: four of them fit a word, eight a vector.
#[inline]
pub fn positions<const S: usize, const K: usize>(key: u32) -> [usize; K] {
    let mut positions = [0; K];
    if K <= 3 {
        let [h0, h1, h2, h3] = hashes([0, 1, 2, 3], key).map(usize::from);
        let group = h0 % 4 * S;
        let all = [group + h1 % S, group + h2 % S, group + h3 % S];
        positions.copy_from_slice(&all[..K]);
    } else {
        let [h0] = hashes([0], key).map(usize::from);
        let all = hashes([1, 2, 3, 4, 5, 6, 7, 8], key).map(|hash| h0 % 4 * S + usize::from(hash) % S);
        positions.copy_from_slice(&all[..K]);
    }
    positions
}

const START: u32 = 2166136261;
const PRIME: u32 = 16777619;

/// The low 16 bits of the hashes with these numbers: FNV-1a over five bytes, the hash's number and the key.
#[inline]
fn hashes<const N: usize>(numbers: [u16; N], key: u32) -> [u16; N] {
    let mut hashes = numbers.map(|j| (START as u16 ^ j).wrapping_mul(PRIME as u16));
    for byte in key.to_le_bytes() {
        hashes = hashes.map(|hash| (hash ^ u16::from(byte)).wrapping_mul(PRIME as u16));
    }
    hashes
}

#[cfg(test)]
mod tests {
    use super::positions;

    #[test]
    fn positions_of_the_model() {
        fn agree<const S: usize, const K: usize>(key: u32) {
            assert_eq!(positions::<S, K>(key), *model::positions(S, K, key));
        }
        for key in (0..2000).chain((0..2000).map(|i| i * 0x10_0001 + 0x8000_0000)) {
            for k in 1..=8 {
                for_hash_count!(k, K => {
                    agree::<16, K>(key);
                    agree::<64, K>(key);
                    agree::<512, K>(key);
                });
            }
        }
    }
}
