//! `kd_sha256` and its running form against the reference's SHA-256 and the vectors published with the standard.

use host_tests::fillings::{filled, lengths, FILLINGS};
use reference::sha256::sha256;

fn hex(text: &[u8]) -> String {
    let answer = boundary::sha256(text);
    assert_eq!(answer.number, 0);
    answer.hash.bytes.iter().map(|byte| format!("{byte:02x}")).collect()
}

fn published_vectors() {
    let vectors: [(&[u8], &str); 5] = [
        (b"", "e3b0c44298fc1c149afbf4c8996fb92427ae41e4649b934ca495991b7852b855"),
        (b"abc", "ba7816bf8f01cfea414140de5dae2223b00361a396177a9cb410ff61f20015ad"),
        (
            b"abcdbcdecdefdefgefghfghighijhijkijkljklmklmnlmnomnopnopq",
            "248d6a61d20638b8e5c026930c3e6039a33ce45964ff2167f6ecedd419db06c1",
        ),
        (
            b"abcdefghbcdefghicdefghijdefghijkefghijklfghijklmghijklmnhijklmnoijklmnopjklmnopqklmnopqrlmnopqrsmnopqrstnopqrstu",
            "cf5b16a778af8380036ce59e7b0492370b249b11e8f07a51afac45037afee9d1",
        ),
        (&[b'a'; 1_000_000], "cdc76e5c9914fb9281a1c7e284d73e67f1809a48a497200e046d39ccc7112cd0"),
    ];
    for (text, expected) in vectors {
        assert_eq!(hex(text), expected, "{} bytes", text.len());
        for burst in [1, 63, 64, 65] {
            assert_eq!(hex_in_bursts(text, burst), expected, "{} bytes in bursts of {burst}", text.len());
        }
    }
}

fn hex_in_bursts(text: &[u8], burst: usize) -> String {
    let begun = boundary::hashing_begin();
    let state = text.chunks(burst).fold(begun, |state, burst| boundary::hashing_more(state, burst).state);
    boundary::hashing_end(state).hash.bytes.iter().map(|byte| format!("{byte:02x}")).collect()
}

fn every_length_and_filling() {
    for length in lengths() {
        for filling in 0..FILLINGS {
            let text = filled(length, filling);
            let answer = boundary::sha256(&text);
            assert_eq!((answer.number, answer.hash.bytes), (0, sha256(&text)), "{length} bytes of filling {filling}");
        }
    }
}

fn a_string_may_begin_at_any_address() {
    let text = filled(400, 3);
    for start in 0..64 {
        for length in [0, 1, 55, 56, 63, 64, 65, 119, 120, 128, 300] {
            let part = &text[start..start + length];
            assert_eq!(boundary::sha256(part).hash.bytes, sha256(part), "{length} bytes from {start}");
        }
    }
}

host_tests::tests! {
    published_vectors,
    every_length_and_filling,
    a_string_may_begin_at_any_address,
}
