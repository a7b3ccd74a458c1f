//! Lists of files of any lengths, and where the pieces of the wire stand in them.

use crate::call::{Call, Entry};
use crate::compare::Comparison;
use crate::random::Random;
use reference::limits::{LONGEST_FILE, RECORD};

const PIECE_LENGTHS: [u64; 8] = [16384, 16384, 32768, 1 << 20, 1 << 24, 1 << 25, 16385, 0];

/// Lengths around a piece's and the longest, many of them empty.
fn length(random: &mut Random) -> u64 {
    match random.below(8) {
        0..=2 => 0,
        3 => random.between(1, 16384),
        4 => random.pick(&[16384, 16385, 32768, 40000]),
        5 => random.below(1 << 26),
        6 => random.below(LONGEST_FILE + 1),
        _ => random.pick(&[1, LONGEST_FILE, LONGEST_FILE - 1]),
    }
}

/// The records of a list: only their lengths are looked at, so that all else is any bytes.
fn list(random: &mut Random) -> Vec<u8> {
    let files = random.below(9);
    let mut list = random.bytes(RECORD * files as usize);
    for record in list.chunks_exact_mut(RECORD) {
        record[..8].copy_from_slice(&length(random).to_be_bytes());
    }
    match random.below(12) {
        0 => list.truncate(list.len().saturating_sub(random.pick(&[1, 8, RECORD - 1]))),
        1 if files > 0 => {
            let at = RECORD * random.below(files) as usize;
            list[at..at + 8].copy_from_slice(&random.pick(&[LONGEST_FILE + 1, 1 << 63, u64::MAX]).to_be_bytes());
        }
        _ => (),
    }
    list
}

/// Lists, as long as wanted: the first piece of each file, and the place of that piece and of its neighbours.
pub fn run(random: &mut Random, compared: &mut Comparison, mut go_on: impl FnMut(&Comparison) -> bool) {
    while go_on(compared) {
        let list = list(random);
        let piece_length = random.pick(&PIECE_LENGTHS);
        let by = |entry, number| Call::new(entry).input(list.clone()).numbers(piece_length, number);
        for file in (0..=list.len() as u64 / RECORD as u64).chain([u64::MAX]) {
            let first = compared.ask(&by(Entry::FirstPiece, file)).given.count();
            let any = first.saturating_add(random.below(100));
            for piece in [first, first.wrapping_sub(1), first + 1, any] {
                compared.ask(&by(Entry::Place, piece));
            }
        }
    }
}
