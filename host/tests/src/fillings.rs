//! Strings for the hash tests. `hashes.py` makes the same ones.

use crate::call::{Call, Entry};
use crate::compare::Comparison;
use crate::random::Random;

pub const FILLINGS: u32 = 4;

/// Every length around the block edges, and some large ones.
pub fn lengths() -> Vec<usize> {
    (0..=300).chain([16384, 65535, 1 << 20, 5_000_003]).collect()
}

/// `length` bytes of a pattern that is repeated every 251 bytes, a prime, so that it never falls in with the blocks.
pub fn filled(length: usize, filling: u32) -> Vec<u8> {
    let pattern: Vec<u8> = (0..251u32).map(|i| byte(i, filling)).collect();
    pattern.into_iter().cycle().take(length).collect()
}

fn byte(i: u32, filling: u32) -> u8 {
    match filling {
        0 => 0,
        1 => 0xff,
        2 => i as u8,
        _ => (i * i * 3 + i * 7 + 11) as u8,
    }
}

const STRINGS: u64 = 20_000;

/// Any strings, their lengths mostly around the edges of the first blocks.
pub fn run(random: &mut Random, compared: &mut Comparison) {
    for _ in 0..STRINGS {
        let most = random.pick(&[64, 64, 130, 130, 300, 2000]);
        let size = random.between(0, most) as usize;
        let string = random.bytes(size);
        compared.ask(&Call::new(Entry::Sha256).input(string.clone()));
        compared.ask(&Call::new(Entry::Sha1).input(string));
    }
}
