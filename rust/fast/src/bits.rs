//! Fields of bits in a word.

/// The low `bits` bits of every `field` bits, side by side. Both are powers of two and constants
/// where this is called, so that the loop is unrolled: three operations for each doubling.
#[inline(always)]
pub fn squeeze(word: u64, bits: u32, field: u32) -> u64 {
    let (mut word, mut bits, mut field) = (word & low(bits, field), bits, field);
    while field < 64 {
        word = (word | word >> (field - bits)) & low(2 * bits, 2 * field);
        (bits, field) = (2 * bits, 2 * field);
    }
    word
}

/// Bit i of byte j becomes bit j of byte i: halves, quarters and eighths change places.
#[inline(always)]
pub fn transpose(mut word: u64) -> u64 {
    for (shift, mask) in [
        (7, 0x00AA_00AA_00AA_00AA),
        (14, 0x0000_CCCC_0000_CCCC),
        (28, 0x0000_0000_F0F0_F0F0),
    ] {
        let differ = (word ^ word >> shift) & mask;
        word ^= differ ^ differ << shift;
    }
    word
}

/// A word with the low `bits` bits of every `field` bits set.
#[inline(always)]
const fn low(bits: u32, field: u32) -> u64 {
    let ones = u64::MAX >> (64 - bits);
    if field == 64 {
        ones
    } else {
        u64::MAX / ((1 << field) - 1) * ones
    }
}

#[cfg(test)]
mod tests {
    use super::*;

    #[test]
    fn squeezed_bit_by_bit() {
        let word = 0x9E37_79B9_7F4A_7C15_u64;
        for (bits, field) in [(1, 2), (1, 4), (1, 8), (1, 16), (2, 8), (4, 8)] {
            let expected = (0..64 / field * bits).fold(0, |sum, to| {
                let from = to / bits * field + to % bits;
                sum | (word >> from & 1) << to
            });
            assert_eq!(squeeze(word, bits, field), expected, "{bits} of {field}");
        }
    }

    #[test]
    fn transposed_bit_by_bit() {
        let word = 0x9E37_79B9_7F4A_7C15_u64;
        let expected = (0..64).fold(0, |sum, to| sum | (word >> (to % 8 * 8 + to / 8) & 1) << to);
        assert_eq!(transpose(word), expected);
        assert_eq!(transpose(expected), word);
    }
}
