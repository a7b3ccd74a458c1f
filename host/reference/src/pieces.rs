//! Loading a piece layer, judging a block and a piece. Sections of the same names in document 01.

use crate::marks::mark;
use crate::number::*;
use crate::sha256::{sha256, Hash};
use crate::store::{any_differs, facts_of, held_at, hold};
use crate::tree::{leaves, over_run, padding, Facts, Position, Settled};
use crate::Answer;

fn answer(judged: Result<u64, u32>) -> Answer {
    judged.map_or_else(Answer::refused, Answer::done)
}

/// The tree from a piece layer upward: its hashes, padded with the layer's padding value, and all above them.
pub fn over_piece_layer(facts: &Facts, layer: &[u8]) -> Vec<Settled> {
    let mut row: Vec<Hash> = layer.chunks_exact(32).map(|bytes| bytes.try_into().unwrap()).collect();
    row.resize(facts.width(facts.piece_layer()) as usize, padding(facts.piece_layer()));
    over_run(Position { layer: facts.piece_layer(), index: 0 }, &row)
}

/// 6, 7, 8 in that order, for positions that were worked out, the last of them being the one to compare with.
fn agrees(store: &[u8], facts: &Facts, worked_out: &[Settled]) -> Result<(), u32> {
    let (at, hash) = *worked_out.last().expect("a tree has a top");
    if held_at(store, facts, at).ok_or(NO_ANCHOR)? != hash {
        return Err(DIFFERS);
    }
    if any_differs(store, facts, worked_out) {
        return Err(CONFLICT);
    }
    Ok(())
}

/// Loads a piece layer: on 0 layer p and all above it are held, and the count is the positions newly held.
pub fn load_layer(store: &mut [u8], layer: &[u8]) -> Answer {
    answer(load(store, layer))
}

fn load(store: &mut [u8], layer: &[u8]) -> Result<u64, u32> {
    let facts = facts_of(store).ok_or(UNUSABLE)?;
    if !facts.has_piece_layer() {
        return Err(RULE_BROKEN);
    }
    if layer.len() as u64 != 32 * facts.pieces() {
        return Err(WRONG_SIZE);
    }
    let worked_out = over_piece_layer(&facts, layer);
    agrees(store, &facts, &worked_out)?;
    Ok(hold(store, &facts, &worked_out))
}

/// Judges a block against its leaf, and marks it on 0.
pub fn judge_block(store: &mut [u8], block: u64, data: &[u8]) -> Answer {
    let judged = block_judged(store, block, data);
    answer(judged.map(|facts| mark(store, &facts, block..block + 1)))
}

fn block_judged(store: &[u8], block: u64, data: &[u8]) -> Result<Facts, u32> {
    let facts = facts_of(store).ok_or(UNUSABLE)?;
    let size = facts.block_size(block).ok_or(RULE_BROKEN)?;
    if data.len() as u64 != size {
        return Err(WRONG_SIZE);
    }
    agrees(store, &facts, &[(Position { layer: 0, index: block }, sha256(data))])?;
    Ok(facts)
}

/// Judges a piece against its node in the piece layer, or against the root of a file not longer than the piece length, and
/// marks each of its blocks on 0.
pub fn judge_piece(store: &mut [u8], piece: u64, data: &[u8]) -> Answer {
    let judged = piece_judged(store, piece, data);
    answer(judged.map(|facts| mark(store, &facts, facts.blocks_of_piece(piece))))
}

/// The facts of a store against which a piece is right, or the number it is refused with.
pub fn piece_judged(store: &[u8], piece: u64, data: &[u8]) -> Result<Facts, u32> {
    let facts = facts_of(store).ok_or(UNUSABLE)?;
    let size = facts.piece_size(piece).ok_or(RULE_BROKEN)?;
    if data.len() as u64 != size {
        return Err(WRONG_SIZE);
    }
    let node = facts.piece_position(piece);
    let width = 1 << node.layer;
    let first = Position { layer: 0, index: node.index * width };
    agrees(store, &facts, &over_run(first, &leaves(data, width)))?;
    Ok(facts)
}

#[cfg(test)]
mod tests {
    use super::*;
    use crate::limits::BLOCK;
    use crate::store::{held, open, store_size};
    use crate::tree::{of_file, root_of_file};

    const PIECE: u64 = 65536;

    fn file(length: usize) -> Vec<u8> {
        (0..length).map(|i| (i * 31 + i / 253) as u8).collect()
    }

    fn opened(bytes: &[u8], piece_length: u64) -> Vec<u8> {
        let mut store = vec![0; store_size(bytes.len() as u64, piece_length).count as usize];
        open(&mut store, bytes.len() as u64, piece_length, root_of_file(bytes));
        store
    }

    fn layer_of(bytes: &[u8], piece_layer: u64) -> Vec<u8> {
        let blocks = (bytes.len() as u64).div_ceil(BLOCK);
        let in_layer = |at: &Position| at.layer == piece_layer && at.index << piece_layer < blocks;
        of_file(bytes).iter().filter(|(at, _)| in_layer(at)).flat_map(|(_, hash)| *hash).collect()
    }

    #[test]
    fn a_layer_holds_itself_and_all_above() {
        let bytes = file(300_000);
        let mut store = opened(&bytes, PIECE);
        let layer = layer_of(&bytes, 2);
        assert_eq!(layer.len(), 5 * 32);
        assert_eq!(load_layer(&mut store, &layer[32..]).number, WRONG_SIZE);
        let mut damaged = layer.clone();
        damaged[40] ^= 1;
        assert_eq!(load_layer(&mut store, &damaged), Answer::refused(DIFFERS));
        // Layers 2, 3, 4, 5 have 8, 4, 2, 1 positions, padding included; the root was held.
        assert_eq!(load_layer(&mut store, &layer), Answer::done(14));
        assert_eq!(load_layer(&mut store, &layer), Answer::done(0));
        assert_eq!(held(&store, 2, 7).hash, padding(2));
        assert_eq!(held(&store, 1, 0).number, NO_ANCHOR);
    }

    #[test]
    fn a_short_file_has_no_layer_and_one_piece() {
        let bytes = file(50_000);
        let mut store = opened(&bytes, PIECE);
        assert_eq!(load_layer(&mut store, &[]).number, RULE_BROKEN);
        assert_eq!(judge_piece(&mut store, 0, &bytes), Answer::done(0));
        assert_eq!(judge_piece(&mut store, 1, &bytes).number, RULE_BROKEN);
        assert_eq!(judge_piece(&mut store, 0, &bytes[1..]).number, WRONG_SIZE);
        assert_eq!(judge_block(&mut store, 0, &bytes[..16384]).number, NO_ANCHOR);
    }

    #[test]
    fn a_piece_is_judged_against_its_node() {
        let bytes = file(100_000);
        let mut store = opened(&bytes, PIECE);
        assert_eq!(judge_piece(&mut store, 1, &bytes[65536..]).number, NO_ANCHOR);
        load_layer(&mut store, &layer_of(&bytes, 2));
        assert_eq!(judge_piece(&mut store, 1, &bytes[65536..]), Answer::done(0));
        let mut damaged = bytes[65536..].to_vec();
        damaged[5] ^= 1;
        assert_eq!(judge_piece(&mut store, 1, &damaged).number, DIFFERS);
    }

    #[test]
    fn a_piece_conflicts_with_a_held_position_below_its_node() {
        let bytes = file(100_000);
        let mut store = opened(&bytes, PIECE);
        load_layer(&mut store, &layer_of(&bytes, 2));
        // A foreign hand marks the padding leaf 7, node number 15, as held with another value.
        let cell = 64 + 33 * 14;
        store[cell] = 1;
        store[cell + 1] = 1;
        assert_eq!(judge_piece(&mut store, 1, &bytes[65536..]).number, CONFLICT);
        assert_eq!(judge_piece(&mut store, 0, &bytes[..65536]), Answer::done(0));
    }

    #[test]
    fn the_held_root_decides_and_not_the_one_among_the_facts() {
        let bytes = file(10);
        let mut store = opened(&bytes, BLOCK);
        store[12] ^= 1;
        assert_eq!(judge_block(&mut store, 0, &bytes), Answer::done(0));
        assert_eq!(judge_piece(&mut store, 0, &bytes), Answer::done(0));
        store[65] ^= 1;
        assert_eq!(judge_block(&mut store, 0, &bytes).number, DIFFERS);
        store[64] = 0;
        assert_eq!(judge_piece(&mut store, 0, &bytes).number, NO_ANCHOR);
    }
}
