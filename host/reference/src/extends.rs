//! Whether a file begins with an earlier one. An addition of ours, asked for as "The younger battery".
//!
//! The earlier tree is folded from the bottom up along its right edge: in each layer at most one position is neither over
//! whole blocks of the earlier file nor padding, and its left sibling, if it has one there, is a hash that the store holds.

use crate::limits::BLOCK;
use crate::number::*;
use crate::sha256::{pair, sha256, Hash};
use crate::store::{facts_of, held_at};
use crate::tree::{padding, Facts, Position};
use crate::Answer;

/// 0 and the earlier length if the store's file begins with the file of this length and root. `block` is the file's block
/// over the earlier end, or empty where that is a block's end too.
pub fn extends(store: &[u8], old_length: u64, old_root: Hash, block: &[u8]) -> Answer {
    match compared(store, old_length, old_root, block) {
        Ok(()) => Answer::done(old_length),
        Err(number) => Answer::refused(number),
    }
}

fn compared(store: &[u8], old_length: u64, old_root: Hash, block: &[u8]) -> Result<(), u32> {
    let facts = facts_of(store).ok_or(UNUSABLE)?;
    if old_length == 0 || old_length > facts.length {
        return Err(RULE_BROKEN);
    }
    let (whole, rest) = (old_length / BLOCK, old_length % BLOCK);
    let size = if rest == 0 { 0 } else { facts.block_size(whole).expect("the earlier file is not longer") };
    if block.len() as u64 != size {
        return Err(WRONG_SIZE);
    }
    let held = |layer: u64, index: u64| held_at(store, &facts, Position { layer, index }).ok_or(NO_ANCHOR);
    let leaf = if rest == 0 { None } else { Some(held(0, whole)?) };
    let last = leaf.map(|_| sha256(&block[..rest as usize]));
    let root = folded(old_length, last, held)?;
    if leaf.is_some_and(|leaf| leaf != sha256(block)) || root != old_root {
        return Err(DIFFERS);
    }
    Ok(())
}

/// The earlier root, from the hash of its last block if that is shorter, and what is held over its whole blocks.
fn folded(length: u64, last: Option<Hash>, held: impl Fn(u64, u64) -> Result<Hash, u32>) -> Result<Hash, u32> {
    let height = Facts { length, piece_length: BLOCK, root: [0; 32] }.height();
    let mut edge = last;
    for layer in 0..height {
        let whole = (length / BLOCK) >> layer;
        let right = edge.unwrap_or(padding(layer));
        edge = match (edge, whole % 2) {
            (_, 1) => Some(pair(&held(layer, whole - 1)?, &right)),
            (Some(left), _) => Some(pair(&left, &padding(layer))),
            (None, _) => None,
        };
    }
    edge.map_or_else(|| held(height, 0), Ok)
}

#[cfg(test)]
mod tests {
    use super::*;
    use crate::store::{hold, open, store_size};
    use crate::tree::{of_file, root_of_file};

    const B: usize = BLOCK as usize;

    fn bytes(length: usize) -> Vec<u8> {
        (0..length).map(|i| (i * 31 + i / 253) as u8).collect()
    }

    /// A store of a file that holds every position.
    fn whole(file: &[u8]) -> Vec<u8> {
        let mut store = vec![0xaa; store_size(file.len() as u64, 32768).count as usize];
        open(&mut store, file.len() as u64, 32768, root_of_file(file));
        let facts = facts_of(&store).unwrap();
        hold(&mut store, &facts, &of_file(file));
        store
    }

    /// The file's block over the end of its first bytes.
    fn over_end(file: &[u8], length: usize) -> &[u8] {
        match length % B {
            0 => &[],
            _ => file.chunks(B).nth(length / B).unwrap(),
        }
    }

    /// Forgets a position.
    fn forget(store: &mut [u8], layer: u64, index: u64) {
        let facts = facts_of(store).unwrap();
        store[64 + 33 * (facts.width(layer) + index - 1) as usize] = 0;
    }

    fn asked(store: &[u8], file: &[u8], old: &[u8]) -> u32 {
        let answer = extends(store, old.len() as u64, root_of_file(old), over_end(file, old.len()));
        assert_eq!(answer.count, if answer.number == DONE { old.len() as u64 } else { 0 });
        answer.number
    }

    #[test]
    fn every_beginning_is_one() {
        for blocks in 1..=9 {
            for file in [bytes(blocks * B), bytes(blocks * B - 1), bytes((blocks - 1) * B + 1)] {
                let store = whole(&file);
                for at in 0..blocks {
                    for length in [at * B + 1, at * B + 77, at * B + B - 1, at * B + B, file.len()] {
                        if length <= file.len() {
                            assert_eq!(asked(&store, &file, &file[..length]), DONE, "{length} of {}", file.len());
                        }
                    }
                }
            }
        }
    }

    #[test]
    fn a_changed_byte_is_another_history() {
        let file = bytes(6 * B + 100);
        let store = whole(&file);
        for length in [1, 100, B, B + 1, 3 * B, 4 * B + 5, 6 * B, 6 * B + 100] {
            for at in (0..length).step_by(B / 2).chain([length - 1]) {
                let mut old = file[..length].to_vec();
                old[at] ^= 1;
                assert_eq!(asked(&store, &file, &old), DIFFERS, "byte {at} of {length}");
            }
        }
        // A block that isn't the one held, though its beginning leads to the root.
        let mut block = over_end(&file, 4 * B + 5).to_vec();
        block[9] ^= 1;
        assert_eq!(extends(&store, 4 * BLOCK + 5, root_of_file(&file[..4 * B + 5]), &block).number, DIFFERS);
    }

    #[test]
    fn numbers_in_order() {
        let file = bytes(6 * B + 100);
        let (store, root) = (whole(&file), root_of_file(&file[..5 * B + 1]));
        let at = 5 * BLOCK + 1;
        let block = over_end(&file, at as usize);
        assert_eq!(extends(&[], at, root, block), Answer::refused(UNUSABLE));
        assert_eq!(extends(&store[..store.len() - 1], 0, root, &[]), Answer::refused(UNUSABLE));
        assert_eq!(extends(&store, 0, root, &[]), Answer::refused(RULE_BROKEN));
        assert_eq!(extends(&store, file.len() as u64 + 1, root, &[]), Answer::refused(RULE_BROKEN));
        assert_eq!(extends(&store, u64::MAX, root, &[]), Answer::refused(RULE_BROKEN));
        assert_eq!(extends(&store, at, root, &block[..1]), Answer::refused(WRONG_SIZE));
        assert_eq!(extends(&store, at, root, &[]), Answer::refused(WRONG_SIZE));
        assert_eq!(extends(&store, 5 * BLOCK, root, block), Answer::refused(WRONG_SIZE));
        // Of five blocks and a byte (2, 0), (0, 4) and leaf 5 are needed, and nothing else.
        for (layer, index, number) in [
            (2, 0, NO_ANCHOR),
            (0, 4, NO_ANCHOR),
            (0, 5, NO_ANCHOR),
            (1, 0, DONE),
            (0, 0, DONE),
            (1, 2, DONE),
            (3, 0, DONE),
        ] {
            let mut store = store.clone();
            forget(&mut store, layer, index);
            assert_eq!(extends(&store, at, root, block).number, number, "({layer}, {index})");
            // 6 comes before 7: of another root, and of another block.
            let other = if number == DONE { DIFFERS } else { number };
            assert_eq!(extends(&store, at, [7; 32], block).number, other);
            assert_eq!(extends(&store, at, root, &vec![0; B]).number, other);
        }
        // At a block's end leaf 5 is not.
        let mut store = store.clone();
        forget(&mut store, 0, 5);
        assert_eq!(asked(&store, &file, &file[..5 * B]), DONE);
    }
}
