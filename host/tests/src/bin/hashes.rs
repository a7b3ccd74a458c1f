//! Prints what the library says of every string of the hash tests; `hashes.py` prints what hashlib says.

use host_tests::fillings::{filled, lengths, FILLINGS};

fn main() {
    for length in lengths() {
        for filling in 0..FILLINGS {
            let string = filled(length, filling);
            let (sha256, sha1) = (boundary::sha256(&string).hash.bytes, boundary::sha1(&string).hash.bytes);
            println!("{length} {filling} {} {}", hex(&sha256), hex(&sha1));
        }
    }
}

fn hex(hash: &[u8]) -> String {
    hash.iter().map(|byte| format!("{byte:02x}")).collect()
}
