//! SHA-256 (FIPS 180-4): this crate has no dependency that provides it.

/// The first fractional bits of the square roots of the first 8 primes.
const START: [u32; 8] = [
    0x6a09e667, 0xbb67ae85, 0x3c6ef372, 0xa54ff53a, 0x510e527f, 0x9b05688c, 0x1f83d9ab, 0x5be0cd19,
];

/// The first fractional bits of the cube roots of the first 64 primes.
const ROOTS: [u32; 64] = [
    0x428a2f98, 0x71374491, 0xb5c0fbcf, 0xe9b5dba5, 0x3956c25b, 0x59f111f1, 0x923f82a4, 0xab1c5ed5,
    0xd807aa98, 0x12835b01, 0x243185be, 0x550c7dc3, 0x72be5d74, 0x80deb1fe, 0x9bdc06a7, 0xc19bf174,
    0xe49b69c1, 0xefbe4786, 0x0fc19dc6, 0x240ca1cc, 0x2de92c6f, 0x4a7484aa, 0x5cb0a9dc, 0x76f988da,
    0x983e5152, 0xa831c66d, 0xb00327c8, 0xbf597fc7, 0xc6e00bf3, 0xd5a79147, 0x06ca6351, 0x14292967,
    0x27b70a85, 0x2e1b2138, 0x4d2c6dfc, 0x53380d13, 0x650a7354, 0x766a0abb, 0x81c2c92e, 0x92722c85,
    0xa2bfe8a1, 0xa81a664b, 0xc24b8b70, 0xc76c51a3, 0xd192e819, 0xd6990624, 0xf40e3585, 0x106aa070,
    0x19a4c116, 0x1e376c08, 0x2748774c, 0x34b0bcb5, 0x391c0cb3, 0x4ed8aa4a, 0x5b9cca4f, 0x682e6ff3,
    0x748f82ee, 0x78a5636f, 0x84c87814, 0x8cc70208, 0x90befffa, 0xa4506ceb, 0xbef9a3f7, 0xc67178f2,
];

/// Returns the digest of these bytes.
pub(crate) fn sha256(bytes: &[u8]) -> [u8; 32] {
    digest_from(START, 0, bytes)
}

/// Returns the digest of a block, followed by these bytes.
pub(crate) fn sha256_after(block: &[u8; 64], bytes: &[u8]) -> [u8; 32] {
    let mut state = START;
    take_in(&mut state, block);
    digest_from(state, 64, bytes)
}

// Returns the digest of bytes after so many others, which are whole blocks and led to this state.
fn digest_from(mut state: [u32; 8], before: u64, bytes: &[u8]) -> [u8; 32] {
    let (blocks, rest) = bytes.as_chunks();
    for block in blocks {
        take_in(&mut state, block);
    }
    // The rest, an end bit, and the number of bits: one or two blocks.
    let mut last = [0; 128];
    last[..rest.len()].copy_from_slice(rest);
    last[rest.len()] = 0x80;
    let end = if rest.len() < 56 { 64 } else { 128 };
    last[end - 8..end].copy_from_slice(&(8 * (before + bytes.len() as u64)).to_be_bytes());
    for block in last[..end].as_chunks().0 {
        take_in(&mut state, block);
    }
    let mut digest = [0; 32];
    for (bytes, word) in digest.as_chunks_mut().0.iter_mut().zip(state) {
        *bytes = word.to_be_bytes();
    }
    digest
}

fn take_in(state: &mut [u32; 8], block: &[u8; 64]) {
    let [mut a, mut b, mut c, mut d, mut e, mut f, mut g, mut h] = *state;
    for (word, root) in schedule(block).into_iter().zip(ROOTS) {
        let sum = e.rotate_right(6) ^ e.rotate_right(11) ^ e.rotate_right(25);
        let choice = (e & f) ^ (!e & g);
        let one = [sum, choice, root, word]
            .into_iter()
            .fold(h, u32::wrapping_add);
        let sum = a.rotate_right(2) ^ a.rotate_right(13) ^ a.rotate_right(22);
        let majority = (a & b) ^ (a & c) ^ (b & c);
        let two = sum.wrapping_add(majority);
        (h, g, f, e, d, c, b, a) = (g, f, e, d.wrapping_add(one), c, b, a, one.wrapping_add(two));
    }
    for (word, more) in state.iter_mut().zip([a, b, c, d, e, f, g, h]) {
        *word = word.wrapping_add(more);
    }
}

// The words of a block, extended for the later rounds.
fn schedule(block: &[u8; 64]) -> [u32; 64] {
    let mut words = [0; 64];
    for (word, bytes) in words.iter_mut().zip(block.as_chunks().0) {
        *word = u32::from_be_bytes(*bytes);
    }
    for at in 16..64 {
        let (late, early) = (words[at - 2], words[at - 15]);
        let late = late.rotate_right(17) ^ late.rotate_right(19) ^ (late >> 10);
        let early = early.rotate_right(7) ^ early.rotate_right(18) ^ (early >> 3);
        words[at] = [words[at - 7], early, words[at - 16]]
            .into_iter()
            .fold(late, u32::wrapping_add);
    }
    words
}

#[cfg(test)]
mod tests {
    use super::*;

    fn hex(digest: [u8; 32]) -> String {
        digest.iter().map(|byte| format!("{byte:02x}")).collect()
    }

    // The examples that NIST publishes with the standard.
    #[test]
    fn examples_have_their_digests() {
        let two_blocks = "abcdefghbcdefghicdefghijdefghijkefghijklfghijklmghijklmn\
                          hijklmnoijklmnopjklmnopqklmnopqrlmnopqrsmnopqrstnopqrstu";
        for (text, digest) in [
            (
                "",
                "e3b0c44298fc1c149afbf4c8996fb92427ae41e4649b934ca495991b7852b855",
            ),
            (
                "abc",
                "ba7816bf8f01cfea414140de5dae2223b00361a396177a9cb410ff61f20015ad",
            ),
            (
                "abcdbcdecdefdefgefghfghighijhijkijkljklmklmnlmnomnopnopq",
                "248d6a61d20638b8e5c026930c3e6039a33ce45964ff2167f6ecedd419db06c1",
            ),
            (
                two_blocks,
                "cf5b16a778af8380036ce59e7b0492370b249b11e8f07a51afac45037afee9d1",
            ),
            (
                &"a".repeat(1_000_000),
                "cdc76e5c9914fb9281a1c7e284d73e67f1809a48a497200e046d39ccc7112cd0",
            ),
        ] {
            assert_eq!(hex(sha256(text.as_bytes())), digest, "{} bytes", text.len());
        }
    }

    // The digests of Python's hashlib for 0 to 130 bytes, which end at each position of a block.
    #[test]
    fn each_length_has_its_digest() {
        let digests: Vec<u8> = (0..=130)
            .flat_map(|length| sha256(&vec![7; length]))
            .collect();
        let wanted = "0eb5135338b0e21dd5184ee15fe32b4d90283be3b12e979d5cab38455e952328";
        assert_eq!(hex(sha256(&digests)), wanted);
    }
}
