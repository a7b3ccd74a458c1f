//! The store: a lent buffer with the facts, for each position a mark and a hash, and for each block a mark. Section "The
//! store" of document 01, and request 7 of document 02.
//!
//! The layout, to the byte:
//!   0..8    N, big-endian
//!   8..12   the piece length, big-endian
//!   12..44  the pieces root
//!   44..64  zero
//!   then a cell of 33 bytes for each node number n from 1 (the root) to 2·2^h - 1, the children of n being 2n and
//!   2n + 1: one mark byte (1 held, 0 not held) and the 32 bytes of the hash
//!   then a byte for each of the 2^h leaves: block i's is 1 if its data is marked as judged right, 0 if not.

use crate::number::*;
use crate::sha256::Hash;
use crate::tree::{Facts, Position, Settled};
use crate::{Answer, Hashed};

pub const HEAD: usize = 64;
pub const CELL: usize = 33;
pub const HELD: u8 = 1;

/// The bytes a store for these facts uses.
pub fn size_of(facts: &Facts) -> u64 {
    CELL as u64 * (2 * facts.width(0) - 1) + HEAD as u64 + facts.width(0)
}

/// The facts a buffer names, where they are in range and it has their room; otherwise it is unusable.
pub fn facts_of(store: &[u8]) -> Option<Facts> {
    if store.len() < HEAD {
        return None;
    }
    let facts = Facts {
        length: u64::from_be_bytes(store[0..8].try_into().unwrap()),
        piece_length: u32::from_be_bytes(store[8..12].try_into().unwrap()) as u64,
        root: store[12..44].try_into().unwrap(),
    };
    // The range first: the size of a store for a length near 2^64 is not a number of 64 bits.
    (facts.in_range() && size_of(&facts) <= store.len() as u64).then_some(facts)
}

/// Where a position's cell begins.
fn cell(facts: &Facts, at: Position) -> usize {
    let node = (facts.width(at.layer) + at.index) as usize;
    HEAD + CELL * (node - 1)
}

/// The hash held at a position of the tree. A mark that says neither is read as not held.
pub fn held_at(store: &[u8], facts: &Facts, at: Position) -> Option<Hash> {
    let cell = cell(facts, at);
    (store[cell] == HELD).then(|| store[cell + 1..cell + CELL].try_into().unwrap())
}

/// A position whose held hash is another than the one given for it.
pub fn any_differs(store: &[u8], facts: &Facts, given: &[Settled]) -> bool {
    given.iter().any(|(at, hash)| held_at(store, facts, *at).is_some_and(|held| held != *hash))
}

/// Makes every position given held, and answers how many were not held before.
pub fn hold(store: &mut [u8], facts: &Facts, given: &[Settled]) -> u64 {
    let mut newly = 0;
    for (at, hash) in given {
        if held_at(store, facts, *at).is_none() {
            newly += 1;
        }
        let cell = cell(facts, *at);
        store[cell] = HELD;
        store[cell + 1..cell + CELL].copy_from_slice(hash);
    }
    newly
}

pub fn store_size(length: u64, piece_length: u64) -> Answer {
    let facts = Facts { length, piece_length, root: [0; 32] };
    if facts.in_range() {
        Answer::done(size_of(&facts))
    } else {
        Answer::refused(FACTS_OUT_OF_RANGE)
    }
}

/// Opens a store in `store`, whatever its bytes were; bytes beyond its size stay.
pub fn open(store: &mut [u8], length: u64, piece_length: u64, root: Hash) -> Answer {
    let facts = Facts { length, piece_length, root };
    if !facts.in_range() {
        return Answer::refused(FACTS_OUT_OF_RANGE);
    }
    if size_of(&facts) > store.len() as u64 {
        return Answer::refused(UNUSABLE);
    }
    store[..size_of(&facts) as usize].fill(0);
    store[0..8].copy_from_slice(&length.to_be_bytes());
    store[8..12].copy_from_slice(&(piece_length as u32).to_be_bytes());
    store[12..44].copy_from_slice(&root);
    Answer::done(hold(store, &facts, &[(facts.top(), root)]))
}

/// The hash held at a layer and an index.
pub fn held(store: &[u8], layer: u64, index: u64) -> Hashed {
    let Some(facts) = facts_of(store) else { return Hashed::refused(UNUSABLE) };
    let at = Position { layer, index };
    if !facts.has_position(at) {
        return Hashed::refused(RULE_BROKEN);
    }
    held_at(store, &facts, at).map_or(Hashed::refused(NO_ANCHOR), Hashed::done)
}

#[cfg(test)]
mod tests {
    use super::*;
    use crate::limits::LONGEST_FILE;

    #[test]
    fn opening_sets_every_byte_of_its_own_and_no_other() {
        let mut store = vec![0xaa; 1000];
        assert_eq!(open(&mut store, 81920, 65536, [7; 32]), Answer::done(1));
        let size = store_size(81920, 65536).count as usize;
        assert_eq!(size, 33 * 15 + 64 + 8);
        let mut expected = vec![0; size];
        expected[5] = 1;
        expected[6] = 0x40;
        expected[9] = 1;
        expected[12..44].fill(7);
        expected[64] = 1;
        expected[65..97].fill(7);
        assert_eq!(store[..size], expected);
        assert!(store[size..].iter().all(|byte| *byte == 0xaa));
    }

    #[test]
    fn facts_out_of_range_come_before_too_little_room() {
        let mut none = [0u8; 0];
        for (length, piece_length) in
            [(0, 16384), (LONGEST_FILE + 1, 16384), (1, 8192), (1, 16385), (1, 1 << 25), (1, 0)]
        {
            assert_eq!(open(&mut none, length, piece_length, [0; 32]).number, FACTS_OUT_OF_RANGE);
            assert_eq!(store_size(length, piece_length), Answer::refused(FACTS_OUT_OF_RANGE));
        }
        assert_eq!(open(&mut none, 1, (1 << 32) + 16384, [0; 32]).number, FACTS_OUT_OF_RANGE);
        assert_eq!(open(&mut none, 1, 16384, [0; 32]).number, UNUSABLE);
        assert_eq!(open(&mut [0; 97], 1, 16384, [0; 32]).number, UNUSABLE);
        assert_eq!(open(&mut [0; 98], 1, 16384, [0; 32]).number, DONE);
    }

    #[test]
    fn foreign_bytes_are_usable_or_not() {
        assert_eq!(held(&[], 0, 0).number, UNUSABLE);
        assert_eq!(held(&[0xff; 5000], 0, 0).number, UNUSABLE);
        let mut store = vec![0; 98];
        open(&mut store, 1, 16384, [3; 32]);
        assert_eq!(held(&store[..97], 0, 0).number, UNUSABLE);
        assert_eq!(held(&store, 0, 0), Hashed::done([3; 32]));
        assert_eq!(held(&store, 0, 1).number, RULE_BROKEN);
        assert_eq!(held(&store, 1 << 40, 0).number, RULE_BROKEN);
        store[64] = 2;
        assert_eq!(held(&store, 0, 0).number, NO_ANCHOR);
        store[50] = 9;
        assert_eq!(held(&store, 0, 0).number, NO_ANCHOR);
    }
}
