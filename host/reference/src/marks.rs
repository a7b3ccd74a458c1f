//! Which blocks are on disk: a mark for each block that says "its data was judged right". Request 7 of document 02.
//!
//! Block i's mark is the i-th byte behind the cells: 1 is marked, 0 cleared, any other value is read as cleared.

use crate::number::*;
use crate::store::{facts_of, size_of};
use crate::tree::Facts;
use crate::Answer;
use std::ops::Range;

const MARKED: u8 = 1;
const CLEARED: u8 = 0;

/// Where block `block`'s mark stands.
fn place(facts: &Facts, block: u64) -> usize {
    (size_of(facts) - facts.width(0) + block) as usize
}

/// Whether a block's data was judged right.
pub fn is_marked(store: &[u8], facts: &Facts, block: u64) -> bool {
    store[place(facts, block)] == MARKED
}

/// Marks these blocks. No hash becomes held by it, so the count of a judgement is 0.
pub fn mark(store: &mut [u8], facts: &Facts, blocks: Range<u64>) -> u64 {
    store[place(facts, blocks.start)..place(facts, blocks.end)].fill(MARKED);
    0
}

/// The facts, where the store is usable and the file has the block.
fn with_block(store: &[u8], block: u64) -> Result<Facts, u32> {
    let facts = facts_of(store).ok_or(UNUSABLE)?;
    if block < facts.blocks() {
        Ok(facts)
    } else {
        Err(RULE_BROKEN)
    }
}

/// Clears a block's mark, whatever byte stood there.
pub fn clear(store: &mut [u8], block: u64) -> Answer {
    match with_block(store, block) {
        Ok(facts) => {
            store[place(&facts, block)] = CLEARED;
            Answer::done(0)
        }
        Err(number) => Answer::refused(number),
    }
}

/// Whether a block is marked: the count is 1 or 0.
pub fn marked(store: &[u8], block: u64) -> Answer {
    with_block(store, block).map_or_else(Answer::refused, |facts| Answer::done(is_marked(store, &facts, block) as u64))
}

/// All blocks of a piece of the file are marked.
pub fn is_on_disk(store: &[u8], facts: &Facts, piece: u64) -> bool {
    facts.blocks_of_piece(piece).all(|block| is_marked(store, facts, block))
}

/// Writes the bitfield: a bit for each piece, the first piece's the highest of its byte, set if all its blocks are marked.
pub fn bitfield(store: &[u8], out: &mut [u8]) -> Answer {
    let Some(facts) = facts_of(store) else { return Answer::refused(UNUSABLE) };
    let size = facts.pieces().div_ceil(8) as usize;
    if out.len() < size {
        return Answer::refused(NO_ROOM);
    }
    out[..size].fill(0);
    for piece in 0..facts.pieces() {
        if is_on_disk(store, &facts, piece) {
            out[piece as usize / 8] |= 0x80 >> (piece % 8);
        }
    }
    Answer::done(size as u64)
}

#[cfg(test)]
mod tests {
    use super::*;
    use crate::limits::BLOCK;
    use crate::pieces::{judge_block, judge_piece, load_layer};
    use crate::store::{open, store_size};
    use crate::tree::{over_run, root_of_file, Position};

    const PIECE: u64 = 32768;
    /// Five blocks, three pieces: the last piece has one block, which is short. h = 3, so eight marks.
    const LENGTH: usize = 4 * BLOCK as usize + 100;

    fn file() -> Vec<u8> {
        (0..LENGTH).map(|i| (i * 31 + i / 253) as u8).collect()
    }

    fn part(bytes: &[u8], size: u64, number: u64) -> &[u8] {
        bytes.chunks(size as usize).nth(number as usize).unwrap()
    }

    fn opened(bytes: &[u8], piece_length: u64) -> Vec<u8> {
        let mut store = vec![0xaa; store_size(bytes.len() as u64, piece_length).count as usize];
        open(&mut store, bytes.len() as u64, piece_length, root_of_file(bytes));
        store
    }

    fn with_layer(bytes: &[u8]) -> Vec<u8> {
        let mut store = opened(bytes, PIECE);
        let piece = |data: &[u8]| over_run(Position { layer: 0, index: 0 }, &crate::tree::leaves(data, 2))[2].1;
        let layer: Vec<u8> = bytes.chunks(PIECE as usize).flat_map(piece).collect();
        assert_eq!(load_layer(&mut store, &layer).number, DONE);
        store
    }

    fn marks(store: &[u8]) -> &[u8] {
        &store[64 + 33 * 15..]
    }

    fn bits(store: &[u8]) -> u8 {
        let mut out = [0xff; 2];
        assert_eq!(bitfield(store, &mut out), Answer::done(1));
        assert_eq!(out[1], 0xff, "the byte behind stays");
        out[0]
    }

    #[test]
    fn opening_clears_all_marks() {
        let store = opened(&file(), PIECE);
        assert_eq!(marks(&store), [0; 8]);
        assert!((0..5).all(|block| marked(&store, block) == Answer::done(0)));
        assert_eq!(bits(&store), 0);
    }

    #[test]
    fn a_piece_marks_its_blocks_and_none_past_the_file() {
        let bytes = file();
        let mut store = with_layer(&bytes);
        assert_eq!(judge_piece(&mut store, 2, part(&bytes, PIECE, 2)), Answer::done(0));
        assert_eq!(marks(&store), [0, 0, 0, 0, 1, 0, 0, 0]);
        assert_eq!(bits(&store), 0b0010_0000);
        assert_eq!(judge_piece(&mut store, 0, part(&bytes, PIECE, 0)), Answer::done(0));
        assert_eq!(marks(&store), [1, 1, 0, 0, 1, 0, 0, 0]);
        assert_eq!(bits(&store), 0b1010_0000);
        assert_eq!(judge_piece(&mut store, 1, part(&bytes, PIECE, 1)), Answer::done(0));
        assert_eq!(marks(&store), [1, 1, 1, 1, 1, 0, 0, 0]);
        assert_eq!(bits(&store), 0b1110_0000);
    }

    #[test]
    fn a_judgement_other_than_0_changes_no_byte() {
        let bytes = file();
        let mut store = with_layer(&bytes);
        judge_piece(&mut store, 0, part(&bytes, PIECE, 0));
        let before = store.clone();
        assert_eq!(judge_piece(&mut store, 0, part(&bytes, PIECE, 1)).number, DIFFERS);
        assert_eq!(judge_piece(&mut store, 0, &bytes[1..]).number, WRONG_SIZE);
        assert_eq!(judge_piece(&mut store, 3, &bytes).number, RULE_BROKEN);
        assert_eq!(judge_block(&mut store, 0, part(&bytes, BLOCK, 1)).number, NO_ANCHOR);
        assert_eq!(store, before, "7 does not clear a mark");
    }

    #[test]
    fn one_piece_files_and_short_blocks() {
        let short = &file()[..3 * BLOCK as usize];
        let mut store = opened(short, 65536);
        assert_eq!(judge_piece(&mut store, 0, short), Answer::done(0));
        assert_eq!(store[64 + 33 * 7..], [1, 1, 1, 0]);
        assert_eq!(bits(&store), 0x80);
        assert_eq!(clear(&mut store, 2), Answer::done(0));
        assert_eq!(bits(&store), 0);
        let mut store = opened(&[7], 16384);
        assert_eq!(judge_block(&mut store, 0, &[7]), Answer::done(0));
        assert_eq!((store[97], bits(&store)), (1, 0x80));
    }

    #[test]
    fn clearing_and_asking() {
        let bytes = file();
        let mut store = with_layer(&bytes);
        judge_piece(&mut store, 0, part(&bytes, PIECE, 0));
        assert_eq!(marked(&store, 1), Answer::done(1));
        assert_eq!(clear(&mut store, 1), Answer::done(0));
        assert_eq!(marked(&store, 1), Answer::done(0));
        assert_eq!(marked(&store, 0), Answer::done(1));
        assert_eq!(clear(&mut store, 1), Answer::done(0), "clearing what is clear");
        let before = store.clone();
        assert_eq!(clear(&mut store, 5), Answer::refused(RULE_BROKEN), "a mark byte, but no block");
        assert_eq!(clear(&mut store, u64::MAX), Answer::refused(RULE_BROKEN));
        assert_eq!(marked(&store, 5), Answer::refused(RULE_BROKEN));
        assert_eq!(store, before);
        assert_eq!(clear(&mut [], 0), Answer::refused(UNUSABLE));
        assert_eq!(marked(&[], 0), Answer::refused(UNUSABLE));
        assert_eq!(bitfield(&[], &mut []), Answer::refused(UNUSABLE));
        assert_eq!(bitfield(&store, &mut []), Answer::refused(NO_ROOM));
    }

    #[test]
    fn foreign_marks_are_read_as_cleared_and_decide_nothing_else() {
        let bytes = file();
        let mut store = with_layer(&bytes);
        store[64 + 33 * 15..].fill(0xaa);
        assert!((0..5).all(|block| marked(&store, block) == Answer::done(0)));
        assert_eq!(bits(&store), 0);
        assert_eq!(judge_piece(&mut store, 0, part(&bytes, PIECE, 1)).number, DIFFERS);
        assert_eq!(marks(&store), [0xaa; 8], "a refusal rewrites no byte");
        assert_eq!(judge_piece(&mut store, 2, part(&bytes, PIECE, 2)), Answer::done(0));
        assert_eq!(clear(&mut store, 0), Answer::done(0));
        assert_eq!(marks(&store), [0, 0xaa, 0xaa, 0xaa, 1, 0xaa, 0xaa, 0xaa]);
    }
}
