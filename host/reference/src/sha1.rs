//! SHA-1 as FIPS 180-4 writes it down (section 6.1): padded like SHA-256, each block's 80 schedule words made first, then 80 rounds. This is
//! the ordinary scalar version that the benchmarks call 1.00.

use crate::sha256::last_blocks;

pub type Sha1 = [u8; 20];

/// SHA-1 of `message`. The standard's limit of 2^61 - 1 bytes is above what a slice can have here.
pub fn sha1(message: &[u8]) -> Sha1 {
    let mut state = START;
    let whole = message.len() / 64 * 64;
    let (last, size) = last_blocks(&message[whole..], message.len());
    for block in message[..whole].chunks_exact(64).chain(last[..size].chunks_exact(64)) {
        state = compress(state, block);
    }
    let mut hash = [0; 20];
    for (bytes, word) in hash.chunks_exact_mut(4).zip(state) {
        bytes.copy_from_slice(&word.to_be_bytes());
    }
    hash
}

/// One block into the state (section 6.1.2).
fn compress(state: [u32; 5], block: &[u8]) -> [u32; 5] {
    let mut w = [0u32; 80];
    for (word, bytes) in w.iter_mut().zip(block.chunks_exact(4)) {
        *word = u32::from_be_bytes([bytes[0], bytes[1], bytes[2], bytes[3]]);
    }
    for t in 16..80 {
        w[t] = (w[t - 3] ^ w[t - 8] ^ w[t - 14] ^ w[t - 16]).rotate_left(1);
    }
    let [mut a, mut b, mut c, mut d, mut e] = state;
    for (t, word) in w.iter().enumerate() {
        let (f, k) = match t / 20 {
            0 => ((b & c) ^ (!b & d), 0x5a827999),
            1 => (b ^ c ^ d, 0x6ed9eba1),
            2 => ((b & c) ^ (b & d) ^ (c & d), 0x8f1bbcdc),
            _ => (b ^ c ^ d, 0xca62c1d6),
        };
        let next = a.rotate_left(5).wrapping_add(f).wrapping_add(e).wrapping_add(k).wrapping_add(*word);
        e = d;
        d = c;
        c = b.rotate_left(30);
        b = a;
        a = next;
    }
    let mut next = state;
    for (word, addend) in next.iter_mut().zip([a, b, c, d, e]) {
        *word = word.wrapping_add(addend);
    }
    next
}

const START: [u32; 5] = [0x67452301, 0xefcdab89, 0x98badcfe, 0x10325476, 0xc3d2e1f0];

#[cfg(test)]
mod tests {
    use super::*;

    fn hex(hash: Sha1) -> String {
        hash.iter().map(|byte| format!("{byte:02x}")).collect()
    }

    #[test]
    fn published_vectors() {
        assert_eq!(hex(sha1(b"")), "da39a3ee5e6b4b0d3255bfef95601890afd80709");
        assert_eq!(hex(sha1(b"abc")), "a9993e364706816aba3e25717850c26c9cd0d89d");
        assert_eq!(
            hex(sha1(b"abcdbcdecdefdefgefghfghighijhijkijkljklmklmnlmnomnopnopq")),
            "84983e441c3bd26ebaae4aa1f95129e5e54670f1"
        );
        assert_eq!(hex(sha1(&[b'a'; 1_000_000])), "34aa973cd4c4daa4f61eeb2bdbad27316534016f");
    }
}
