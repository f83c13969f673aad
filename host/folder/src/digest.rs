//! A digest of 64 bits, against accidents and not against forgers: a change within one word always changes it, and changes of
//! several words undo each other only by chance. It is kept in job folders, so that it must stay what it is.

/// Odd, and with its bits well spread, so that a product with it is one-to-one and reaches the high bits.
const FACTOR: u64 = 0x9e37_79b9_7f4a_7c15;

/// One word into a lane. It is one-to-one in each of the two. A product takes no bit downwards: the second one, after the
/// halves have changed places, does, so that no bits of the next word take a change of this one back in all cases.
fn step(lane: u64, word: u64) -> u64 {
    (lane ^ word).wrapping_mul(FACTOR).rotate_left(32).wrapping_mul(FACTOR)
}

fn block(lanes: &mut [u64; 4], bytes: &[u8]) {
    for (lane, word) in lanes.iter_mut().zip(bytes.chunks_exact(8)) {
        *lane =
            step(*lane, u64::from_le_bytes([word[0], word[1], word[2], word[3], word[4], word[5], word[6], word[7]]));
    }
}

/// Four lanes, so that a processor has four products under way; the last block is filled up with zeros, and the length counts.
pub fn digest(bytes: &[u8]) -> u64 {
    let mut lanes = [1, 2, 3, 4];
    let blocks = bytes.chunks_exact(32);
    let mut rest = [0; 32];
    rest[..blocks.remainder().len()].copy_from_slice(blocks.remainder());
    blocks.for_each(|bytes| block(&mut lanes, bytes));
    block(&mut lanes, &rest);
    lanes.iter().fold(bytes.len() as u64, |sum, lane| step(sum, *lane))
}

#[cfg(test)]
mod tests {
    use super::digest;

    #[test]
    fn each_byte_and_the_length_count() {
        let bytes: Vec<u8> = (0..100).map(|n| (n * 37 % 251) as u8).collect();
        let whole = digest(&bytes);
        for n in 0..bytes.len() {
            let mut other = bytes.clone();
            other[n] ^= 1 << (n % 8);
            assert_ne!(digest(&other), whole, "byte {n}");
            assert_ne!(digest(&bytes[..n]), whole, "length {n}");
        }
        let mut swapped = bytes.clone();
        swapped[..64].rotate_left(32);
        assert_ne!(digest(&swapped), whole, "the order of blocks");
        assert_ne!(digest(&[0; 32]), digest(&[0; 31]));
        // A word's highest bit, and any one bit of the next word of its lane.
        for bit in 0..64 {
            let mut other = bytes.clone();
            other[7] ^= 0x80;
            other[32 + bit / 8] ^= 1 << (bit % 8);
            assert_ne!(digest(&other), whole, "bit {bit}");
        }
    }

    /// Job folders rest on it. These values were computed apart from this code.
    #[test]
    fn it_stays_what_it_is() {
        assert_eq!(digest(b""), 0xfa62_7077_48ee_c39e);
        assert_eq!(digest(b"tray, thirty-two bytes and more than that"), 0xd777_90ff_22aa_ca9b);
    }
}
