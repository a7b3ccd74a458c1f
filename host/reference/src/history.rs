//! The running tree: a file's tree as its bytes come in bursts. Request 1 of document 02.

use crate::limits::{BLOCK, LONGEST_FILE};
use crate::number::{DONE, FACTS_OUT_OF_RANGE, NO_ROOM, UNUSABLE};
use crate::running::Hashing;
use crate::sha256::{pair, Hash};
use crate::tree::{padding, piece_length_in_range};

/// One node for each layer of the tallest tree, the root's included.
pub const NODES: usize = 1 + (LONGEST_FILE / BLOCK).ilog2() as usize;

/// The running hash of the block under way, and for each layer its last finished node; zero where there is none.
#[derive(Clone, Copy, Debug, PartialEq, Eq)]
pub struct History {
    pub piece_length: u64,
    pub length: u64,
    pub block: Hashing,
    pub nodes: [Hash; NODES],
}

#[derive(Clone, Copy, Debug, PartialEq, Eq)]
pub struct End {
    pub number: u32,
    pub length: u64,
    pub root: Hash,
    pub layer_size: u64,
}

impl End {
    fn refused(number: u32) -> End {
        End { number, length: 0, root: [0; 32], layer_size: 0 }
    }
}

impl History {
    /// No bytes yet; 10 with a zero state for a bad piece length.
    pub fn begin(piece_length: u64) -> (u32, History) {
        let history = History { piece_length, length: 0, block: Hashing::begin(), nodes: [[0; 32]; NODES] };
        if piece_length_in_range(piece_length) {
            return (DONE, history);
        }
        let block = Hashing { words: [0; 8], tail: [0; 64], tail_size: 0, total: 0 };
        (FACTS_OUT_OF_RANGE, History { piece_length: 0, block, ..history })
    }

    /// Whether some bursts give these counts.
    pub fn possible(&self) -> bool {
        piece_length_in_range(self.piece_length)
            && self.length <= LONGEST_FILE
            && self.block.total == self.length % BLOCK
            && self.block.possible()
    }

    /// How many pieces the first `length` bytes have run past.
    fn passed(&self, length: u64) -> u64 {
        length.div_ceil(self.piece_length).saturating_sub(1)
    }

    /// A burst. Beside a refusal the state comes back as it was given, and the layer stays.
    pub fn more(self, burst: &[u8], layer: &mut [u8]) -> (u32, History) {
        if !self.possible() {
            return (UNUSABLE, self);
        }
        if burst.len() as u64 > LONGEST_FILE - self.length {
            return (FACTS_OUT_OF_RANGE, self);
        }
        let due = self.passed(self.length + burst.len() as u64);
        if due > self.passed(self.length) && (layer.len() as u64) < 32 * due {
            return (NO_ROOM, self);
        }
        let mut history = self;
        for part in parts(self.length, burst) {
            history.take(part, layer);
        }
        (DONE, history)
    }

    /// Bytes of one block, at least one. If they run past a piece, its hash is written; if they end the block, its leaf is
    /// finished, and each node that it is the last leaf of.
    fn take(&mut self, part: &[u8], layer: &mut [u8]) {
        if self.length > 0 && self.length.is_multiple_of(self.piece_length) {
            let piece = (self.length / self.piece_length) as usize - 1;
            layer[32 * piece..][..32].copy_from_slice(&self.nodes[self.piece_layer()]);
        }
        self.block = self.block.after(part);
        self.length += part.len() as u64;
        if self.length.is_multiple_of(BLOCK) {
            self.finish(self.block.end().hash);
            self.block = Hashing::begin();
        }
    }

    fn finish(&mut self, leaf: Hash) {
        let before = self.nodes;
        let mut hash = leaf;
        for (layer, last) in before.iter().enumerate() {
            if !(self.length / BLOCK).is_multiple_of(1 << layer) {
                return;
            }
            self.nodes[layer] = hash;
            hash = pair(last, &hash);
        }
    }

    fn piece_layer(&self) -> usize {
        (self.piece_length / BLOCK).ilog2() as usize
    }

    /// The node of layer `layer` over the last byte.
    fn last(&self, layer: usize) -> Hash {
        if self.length.is_multiple_of(BLOCK << layer) {
            return self.nodes[layer];
        }
        let mut index = self.length / BLOCK;
        let mut hash = if self.length.is_multiple_of(BLOCK) { [0; 32] } else { self.block.end().hash };
        for below in 0..layer {
            hash = match index % 2 {
                1 => pair(&self.nodes[below], &hash),
                _ => pair(&hash, &padding(below as u64)),
            };
            index /= 2;
        }
        hash
    }

    /// N, the root and the layer's size; the last piece's hash is written if there is a layer. The state may go on.
    pub fn end(&self, layer: &mut [u8]) -> End {
        if !self.possible() {
            return End::refused(UNUSABLE);
        }
        let has_layer = self.length > self.piece_length;
        let layer_size = if has_layer { 32 * self.length.div_ceil(self.piece_length) } else { 0 };
        if (layer.len() as u64) < layer_size {
            return End::refused(NO_ROOM);
        }
        if has_layer {
            layer[layer_size as usize - 32..][..32].copy_from_slice(&self.last(self.piece_layer()));
        }
        let height = self.length.div_ceil(BLOCK).next_power_of_two().ilog2() as usize;
        let root = if self.length == 0 { [0; 32] } else { self.last(height) };
        End { number: DONE, length: self.length, root, layer_size }
    }
}

/// A burst behind `length` bytes, cut where blocks end. No part is empty.
fn parts(length: u64, burst: &[u8]) -> impl Iterator<Item = &[u8]> {
    let first = ((BLOCK - length % BLOCK) as usize).min(burst.len());
    let (head, rest) = burst.split_at(first);
    Some(head).filter(|head| !head.is_empty()).into_iter().chain(rest.chunks(BLOCK as usize))
}

#[cfg(test)]
mod tests {
    use super::*;
    use crate::tree::{leaves, over_run, root_of_file, Position};

    fn bytes(size: usize) -> Vec<u8> {
        (0..size).map(|i| (i / 251 * 31 + i) as u8).collect()
    }

    /// The piece layer of a file, from the whole tree of each piece.
    fn layer_of(file: &[u8], piece_length: u64) -> Vec<u8> {
        let width = piece_length / BLOCK;
        let node = |piece: &[u8]| over_run(Position { layer: 0, index: 0 }, &leaves(piece, width)).last().unwrap().1;
        file.chunks(piece_length as usize).flat_map(node).collect()
    }

    fn whole(file: &[u8], piece_length: u64, burst: usize) -> (End, Vec<u8>) {
        let mut layer = vec![0x55; 32 * file.len().div_ceil(piece_length as usize)];
        let mut history = History::begin(piece_length).1;
        for burst in file.chunks(burst.max(1)) {
            let (number, after) = history.more(burst, &mut layer);
            assert_eq!(number, DONE);
            history = after;
        }
        (history.end(&mut layer), layer)
    }

    #[test]
    fn root_and_layer_are_those_of_the_tree() {
        for piece_length in [BLOCK, 2 * BLOCK, 4 * BLOCK] {
            for blocks in 1..=9 {
                for off in [-1, 0, 1] {
                    let size = (blocks * BLOCK as i64 + off) as usize;
                    let file = bytes(size);
                    let (end, layer) = whole(&file, piece_length, 5000);
                    assert_eq!((end.number, end.length, end.root), (DONE, size as u64, root_of_file(&file)));
                    if size as u64 > piece_length {
                        assert_eq!(layer, layer_of(&file, piece_length));
                        assert_eq!(end.layer_size, layer.len() as u64);
                    } else {
                        assert_eq!(end.layer_size, 0);
                        assert!(layer.iter().all(|byte| *byte == 0x55));
                    }
                }
            }
        }
    }

    #[test]
    fn a_hash_is_written_once_the_history_runs_past_the_piece() {
        let mut layer = [0x55; 64];
        let one = History::begin(BLOCK).1.more(&bytes(16384), &mut layer).1;
        assert_eq!(one.more(&[], &mut layer), (DONE, one));
        assert_eq!(layer, [0x55; 64]);
        let past = one.more(&[1], &mut layer).1;
        assert_ne!(layer[..32], [0x55; 32]);
        assert_eq!(layer[32..], [0x55; 32]);
        assert_eq!(past.end(&mut layer).layer_size, 64);
        assert_ne!(layer[32..], [0x55; 32]);
    }

    #[test]
    fn two_whole_pieces_still_write_the_second_hash() {
        let file = bytes(2 * 32768);
        let (end, layer) = whole(&file, 32768, 4096);
        assert_eq!(layer, layer_of(&file, 32768));
        assert_eq!(end.root, root_of_file(&file));
    }

    #[test]
    fn nothing_is_written_if_one_hash_does_not_fit() {
        let begun = History::begin(BLOCK).1;
        let mut layer = [0x55; 63];
        assert_eq!(begun.more(&bytes(2 * 16384 + 1), &mut layer), (NO_ROOM, begun));
        assert_eq!(layer, [0x55; 63]);
        // nothing is due: the size doesn't matter
        assert_eq!(begun.more(&bytes(16384), &mut []).0, DONE);
    }

    #[test]
    fn an_end_in_between_changes_nothing() {
        let file = bytes(5 * 16384 + 77);
        let mut layer = [0; 32 * 6];
        let (_, half) = History::begin(BLOCK).1.more(&file[..40000], &mut layer);
        assert_eq!(half.end(&mut layer).root, root_of_file(&file[..40000]));
        let (_, all) = half.more(&file[40000..], &mut layer);
        assert_eq!(all.end(&mut layer).root, root_of_file(&file));
        assert_eq!(layer[..], layer_of(&file, BLOCK)[..]);
    }

    #[test]
    fn empty_and_refused() {
        let (number, begun) = History::begin(BLOCK);
        assert_eq!((number, begun.end(&mut [])), (DONE, End { number: DONE, length: 0, root: [0; 32], layer_size: 0 }));
        for bad in [0, 1, 8192, 16385, 3 * 16384, 1 << 25, (1 << 32) + 16384] {
            let (number, state) = History::begin(bad);
            assert_eq!((number, state.piece_length, state.block.words), (FACTS_OUT_OF_RANGE, 0, [0; 8]));
        }
        let odd = History { length: 5, ..begun };
        assert_eq!(odd.more(&[], &mut []), (UNUSABLE, odd));
        assert_eq!(odd.end(&mut []).number, UNUSABLE);
        let full = History { length: LONGEST_FILE, ..begun };
        assert_eq!(full.more(&[1], &mut []), (FACTS_OUT_OF_RANGE, full));
        assert_eq!(full.more(&[], &mut []), (DONE, full));
    }
}
