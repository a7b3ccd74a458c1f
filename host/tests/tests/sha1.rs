//! `kd_sha1` against the reference's SHA-1 and the vectors published with the standard.

use host_tests::fillings::{filled, lengths, FILLINGS};
use reference::sha1::sha1;

fn hex(text: &[u8]) -> String {
    let answer = boundary::sha1(text);
    assert_eq!(answer.number, 0);
    answer.hash.bytes.iter().map(|byte| format!("{byte:02x}")).collect()
}

fn published_vectors() {
    let vectors: [(&[u8], &str); 5] = [
        (b"", "da39a3ee5e6b4b0d3255bfef95601890afd80709"),
        (b"abc", "a9993e364706816aba3e25717850c26c9cd0d89d"),
        (
            b"abcdbcdecdefdefgefghfghighijhijkijkljklmklmnlmnomnopnopq",
            "84983e441c3bd26ebaae4aa1f95129e5e54670f1",
        ),
        (
            b"abcdefghbcdefghicdefghijdefghijkefghijklfghijklmghijklmnhijklmnoijklmnopjklmnopqklmnopqrlmnopqrsmnopqrstnopqrstu",
            "a49b2446a02c645bf419f995b67091253a04a259",
        ),
        (&[b'a'; 1_000_000], "34aa973cd4c4daa4f61eeb2bdbad27316534016f"),
    ];
    for (text, expected) in vectors {
        assert_eq!(hex(text), expected, "{} bytes", text.len());
    }
}

fn every_length_and_filling() {
    for length in lengths() {
        for filling in 0..FILLINGS {
            let text = filled(length, filling);
            let answer = boundary::sha1(&text);
            assert_eq!((answer.number, answer.hash.bytes), (0, sha1(&text)), "{length} bytes of filling {filling}");
        }
    }
}

fn a_string_may_begin_at_any_address() {
    let text = filled(400, 3);
    for start in 0..64 {
        for length in [0, 1, 55, 56, 63, 64, 65, 119, 120, 128, 300] {
            let part = &text[start..start + length];
            assert_eq!(boundary::sha1(part).hash.bytes, sha1(part), "{length} bytes from {start}");
        }
    }
}

host_tests::tests! {
    published_vectors,
    every_length_and_filling,
    a_string_may_begin_at_any_address,
}
