//! The v2 hash tree of a file: its facts, its geometry, its values. Section "The tree" of document 01.

use crate::limits::{BLOCK, LARGEST_PIECE_LENGTH, LONGEST_FILE, SMALLEST_PIECE_LENGTH};
use crate::sha256::{pair, sha256, Hash};
use std::iter::successors;
use std::sync::OnceLock;

/// What a store is opened with: N, the piece length, the pieces root.
#[derive(Clone, Copy, Debug, PartialEq, Eq)]
pub struct Facts {
    pub length: u64,
    pub piece_length: u64,
    pub root: Hash,
}

/// A position of the tree. Layer 0 holds the leaves, layer h the root.
#[derive(Clone, Copy, Debug, PartialEq, Eq, Hash)]
pub struct Position {
    pub layer: u64,
    pub index: u64,
}

/// A position with the hash that stands there, or is said to.
pub type Settled = (Position, Hash);

pub fn piece_length_in_range(piece_length: u64) -> bool {
    piece_length.is_power_of_two() && (SMALLEST_PIECE_LENGTH..=LARGEST_PIECE_LENGTH).contains(&piece_length)
}

/// ceil(amount / 2^layer).
pub fn halved(amount: u64, layer: u64) -> u64 {
    (0..layer).fold(amount, |rest, _| rest.div_ceil(2))
}

impl Facts {
    pub fn in_range(&self) -> bool {
        (1..=LONGEST_FILE).contains(&self.length) && piece_length_in_range(self.piece_length)
    }

    /// B, the number of blocks.
    pub fn blocks(&self) -> u64 {
        self.length.div_ceil(BLOCK)
    }

    /// h, the least with 2^h at least B.
    pub fn height(&self) -> u64 {
        (0..).find(|h| 1 << h >= self.blocks()).expect("B is at most 2^63")
    }

    /// Positions in a layer of this tree, padding included.
    pub fn width(&self, layer: u64) -> u64 {
        1 << (self.height() - layer)
    }

    pub fn has_position(&self, at: Position) -> bool {
        at.layer <= self.height() && at.index < self.width(at.layer)
    }

    /// A position that covers no block.
    pub fn is_padding(&self, at: Position) -> bool {
        at.index >= halved(self.blocks(), at.layer)
    }

    /// p, the number of the piece layer; the tree need not be that high.
    pub fn piece_layer(&self) -> u64 {
        (self.piece_length / BLOCK).trailing_zeros() as u64
    }

    /// Only a file longer than the piece length has a piece layer.
    pub fn has_piece_layer(&self) -> bool {
        self.length > self.piece_length
    }

    pub fn pieces(&self) -> u64 {
        self.length.div_ceil(self.piece_length)
    }

    /// Bytes of block `block`, or `None` past the file.
    pub fn block_size(&self, block: u64) -> Option<u64> {
        part_size(self.length, BLOCK, block)
    }

    /// Bytes of piece `piece`, or `None` past the file.
    pub fn piece_size(&self, piece: u64) -> Option<u64> {
        part_size(self.length, self.piece_length, piece)
    }

    /// The blocks that a piece of the file covers; the last piece may have fewer than the others.
    pub fn blocks_of_piece(&self, piece: u64) -> std::ops::Range<u64> {
        let each = self.piece_length / BLOCK;
        piece * each..self.blocks().min((piece + 1) * each)
    }

    /// The position a piece is judged against: its node in the piece layer, or the root of a short file.
    pub fn piece_position(&self, piece: u64) -> Position {
        if self.has_piece_layer() {
            Position { layer: self.piece_layer(), index: piece }
        } else {
            self.top()
        }
    }

    /// Where the root stands.
    pub fn top(&self) -> Position {
        Position { layer: self.height(), index: 0 }
    }
}

/// The size of part `number` of `length` bytes cut into parts of `part` bytes, the last one shorter.
fn part_size(length: u64, part: u64, number: u64) -> Option<u64> {
    let start = number.checked_mul(part)?;
    (start < length).then(|| part.min(length - start))
}

/// The padding value of a layer: 32 zero bytes, and above the hash of two of the layer below.
pub fn padding(layer: u64) -> Hash {
    static TABLE: OnceLock<Vec<Hash>> = OnceLock::new();
    let above = |below: &Hash| Some(pair(below, below));
    TABLE.get_or_init(|| successors(Some([0; 32]), above).take(64).collect())[layer as usize]
}

/// Every position of the tree over a run of 2^k hashes that begins at `first`, the run included, from the bottom up;
/// the last one is the run's own top.
pub fn over_run(first: Position, run: &[Hash]) -> Vec<Settled> {
    let mut all = Vec::new();
    let mut at = first;
    let mut row = run.to_vec();
    loop {
        for (offset, hash) in row.iter().enumerate() {
            all.push((Position { layer: at.layer, index: at.index + offset as u64 }, *hash));
        }
        if row.len() == 1 {
            return all;
        }
        row = row.chunks_exact(2).map(|children| pair(&children[0], &children[1])).collect();
        at = Position { layer: at.layer + 1, index: at.index / 2 };
    }
}

/// The leaves of some bytes of a file: each block hashed at its own length, then zeros up to `width` leaves.
pub fn leaves(bytes: &[u8], width: u64) -> Vec<Hash> {
    let mut leaves: Vec<Hash> = bytes.chunks(BLOCK as usize).map(sha256).collect();
    leaves.resize(width as usize, [0; 32]);
    leaves
}

/// The whole tree of a file's bytes, the pieces root last.
pub fn of_file(bytes: &[u8]) -> Vec<Settled> {
    let blocks = bytes.chunks(BLOCK as usize).count() as u64;
    over_run(Position { layer: 0, index: 0 }, &leaves(bytes, blocks.next_power_of_two()))
}

/// The pieces root of a file's bytes.
pub fn root_of_file(bytes: &[u8]) -> Hash {
    of_file(bytes).last().expect("a tree has a root").1
}

#[cfg(test)]
mod tests {
    use super::*;
    use crate::limits::TALLEST_TREE;

    fn facts(length: u64, piece_length: u64) -> Facts {
        Facts { length, piece_length, root: [0; 32] }
    }

    fn blocks_and_height(length: u64) -> (u64, u64) {
        let facts = facts(length, BLOCK);
        (facts.blocks(), facts.height())
    }

    #[test]
    fn worked_geometry() {
        assert_eq!(blocks_and_height(1), (1, 0));
        assert_eq!(blocks_and_height(16384), (1, 0));
        assert_eq!(blocks_and_height(16385), (2, 1));
        assert_eq!(blocks_and_height(81920), (5, 3));
        assert_eq!(blocks_and_height(641 * BLOCK), (641, 10));
        assert_eq!(blocks_and_height(LONGEST_FILE), (1 << TALLEST_TREE, TALLEST_TREE));
    }

    #[test]
    fn worked_padding() {
        let five = facts(81920, BLOCK);
        let counts: Vec<u64> = (0..=3).map(|layer| halved(five.blocks(), layer)).collect();
        assert_eq!(counts, [5, 3, 2, 1]);
        let many = facts(641 * BLOCK, BLOCK);
        let padding = (0..many.width(0)).filter(|index| many.is_padding(Position { layer: 0, index: *index }));
        assert_eq!(padding.count(), 383);
    }

    #[test]
    fn worked_pieces() {
        let two = facts(100_000, 65536);
        assert_eq!((two.blocks(), two.height(), two.pieces()), (7, 3, 2));
        assert_eq!((two.piece_size(0), two.piece_size(1), two.piece_size(2)), (Some(65536), Some(34464), None));
        let short = facts(50_000, 65536);
        assert_eq!((short.blocks(), short.has_piece_layer(), short.pieces()), (4, false, 1));
    }

    #[test]
    fn part_numbers_do_not_overflow() {
        assert_eq!(facts(1, BLOCK).block_size(1 << 50), None);
        assert_eq!(facts(1, BLOCK).block_size(u64::MAX), None);
    }

    #[test]
    fn last_block_is_not_filled_up_and_missing_leaves_are_zero() {
        let bytes = vec![7u8; 3 * 16384 - 5];
        let leaf = |from: usize, to: usize| sha256(&bytes[from..to]);
        let left = pair(&leaf(0, 16384), &leaf(16384, 32768));
        let right = pair(&leaf(32768, bytes.len()), &[0; 32]);
        assert_eq!(root_of_file(&bytes), pair(&left, &right));
    }

    #[test]
    fn upper_padding_is_worked_out() {
        assert_eq!(padding(0), [0; 32]);
        assert_eq!(padding(1), sha256(&[0; 64]));
        assert_eq!(padding(2), pair(&padding(1), &padding(1)));
    }
}
