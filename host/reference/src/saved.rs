//! A store saved, loaded again and repaired. Request 13 of document 02.
//!
//! Records, each a kind byte and a fixed body, numbers big-endian:
//!   1  opening: N (8), piece length (4), pieces root (32); one, first
//!   2  a held position: layer (4), index (4), hash (32); rising by layer and then index
//!   3  a marked block: its number (4); rising
//!   4  end: the count of marks (4); one, nothing behind it
//!
//! The bytes are read record by record from the front into a value, and the clauses are asked of the value's positions, one by one.

use crate::marks::{is_marked, mark};
use crate::number::*;
use crate::sha256::{pair, Hash};
use crate::store::{facts_of, held_at, hold, open, size_of};
use crate::tree::{padding, Facts, Position, Settled};
use crate::Answer;
use std::collections::HashMap;

const OPENING: u8 = 1;
const POSITION: u8 = 2;
const MARK: u8 = 3;
const END: u8 = 4;

/// A number, and beside 0 how many positions were dropped and how many are held.
#[derive(Clone, Copy, Debug, PartialEq, Eq)]
pub struct Repaired {
    pub number: u32,
    pub dropped: u64,
    pub held: u64,
}

impl Repaired {
    pub fn refused(number: u32) -> Repaired {
        Repaired { number, dropped: 0, held: 0 }
    }
}

/// What saved bytes say behind their opening record.
struct Content {
    positions: Vec<Settled>,
    marks: Vec<u64>,
}

/// Every position of a tree, by layer and then index.
fn all_positions(facts: &Facts) -> impl Iterator<Item = Position> + '_ {
    (0..=facts.height()).flat_map(|layer| (0..facts.width(layer)).map(move |index| Position { layer, index }))
}

/// Writes what a usable store holds and which blocks it marks.
pub fn save(store: &[u8], out: &mut [u8]) -> Answer {
    let Some(facts) = facts_of(store) else { return Answer::refused(UNUSABLE) };
    let mut bytes = vec![OPENING];
    bytes.extend(facts.length.to_be_bytes());
    bytes.extend((facts.piece_length as u32).to_be_bytes());
    bytes.extend(facts.root);
    for at in all_positions(&facts) {
        if let Some(hash) = held_at(store, &facts, at) {
            bytes.push(POSITION);
            bytes.extend((at.layer as u32).to_be_bytes());
            bytes.extend((at.index as u32).to_be_bytes());
            bytes.extend(hash);
        }
    }
    let marked: Vec<u64> = (0..facts.blocks()).filter(|block| is_marked(store, &facts, *block)).collect();
    for block in &marked {
        bytes.push(MARK);
        bytes.extend((*block as u32).to_be_bytes());
    }
    bytes.push(END);
    bytes.extend((marked.len() as u32).to_be_bytes());
    if out.len() < bytes.len() {
        return Answer::refused(NO_ROOM);
    }
    out[..bytes.len()].copy_from_slice(&bytes);
    Answer::done(bytes.len() as u64)
}

/// Takes `count` bytes off the front.
fn taken<'a>(rest: &mut &'a [u8], count: usize) -> Option<&'a [u8]> {
    let (front, behind) = rest.split_at_checked(count)?;
    *rest = behind;
    Some(front)
}

fn number(rest: &mut &[u8]) -> Option<u64> {
    Some(u32::from_be_bytes(taken(rest, 4)?.try_into().unwrap()) as u64)
}

/// The facts of a whole opening record, and the bytes behind it.
fn opening(saved: &[u8]) -> Option<(Facts, &[u8])> {
    let mut rest = saved;
    if taken(&mut rest, 1)? != [OPENING] {
        return None;
    }
    let length = u64::from_be_bytes(taken(&mut rest, 8)?.try_into().unwrap());
    let piece_length = number(&mut rest)?;
    let root = taken(&mut rest, 32)?.try_into().unwrap();
    Some((Facts { length, piece_length, root }, rest))
}

/// The records behind the opening, where they have the form.
fn content(facts: &Facts, mut rest: &[u8]) -> Option<Content> {
    let mut content = Content { positions: Vec::new(), marks: Vec::new() };
    loop {
        match taken(&mut rest, 1)?[0] {
            POSITION if content.marks.is_empty() => {
                let at = Position { layer: number(&mut rest)?, index: number(&mut rest)? };
                let hash: Hash = taken(&mut rest, 32)?.try_into().unwrap();
                let rises =
                    content.positions.last().is_none_or(|(last, _)| (last.layer, last.index) < (at.layer, at.index));
                if !facts.has_position(at) || !rises {
                    return None;
                }
                content.positions.push((at, hash));
            }
            MARK => {
                let block = number(&mut rest)?;
                let rises = content.marks.last().is_none_or(|last| *last < block);
                if block >= facts.blocks() || !rises {
                    return None;
                }
                content.marks.push(block);
            }
            END => {
                let count = number(&mut rest)?;
                return (count == content.marks.len() as u64 && rest.is_empty()).then_some(content);
            }
            _ => return None,
        }
    }
}

/// 32 without a whole opening record, then 10 for the facts, 9 for the room, and 32 without the form.
fn read(size: usize, saved: &[u8]) -> Result<(Facts, Content), u32> {
    let (facts, rest) = opening(saved).ok_or(NOT_SAVED)?;
    if !facts.in_range() {
        return Err(FACTS_OUT_OF_RANGE);
    }
    if size_of(&facts) > size as u64 {
        return Err(UNUSABLE);
    }
    let content = content(&facts, rest).ok_or(NOT_SAVED)?;
    Ok((facts, content))
}

/// Whether one position of a set is as the clauses ask: the root with the facts' value; any other with its sibling and its parent in the set, the
/// parent being the hash of the two; a padding position with its layer's value.
fn is_right(facts: &Facts, set: &HashMap<Position, Hash>, at: Position, hash: &Hash) -> bool {
    if facts.is_padding(at) && *hash != padding(at.layer) {
        return false;
    }
    if at == facts.top() {
        return *hash == facts.root;
    }
    let child = |side| set.get(&Position { layer: at.layer, index: at.index / 2 * 2 + side });
    let parent = set.get(&Position { layer: at.layer + 1, index: at.index / 2 });
    match (child(0), child(1), parent) {
        (Some(left), Some(right), Some(parent)) => pair(left, right) == *parent,
        _ => false,
    }
}

/// Whether all positions are as the clauses ask, the root among them.
fn meets(facts: &Facts, positions: &[Settled]) -> bool {
    let set: HashMap<Position, Hash> = positions.iter().copied().collect();
    set.contains_key(&facts.top()) && positions.iter().all(|(at, hash)| is_right(facts, &set, *at, hash))
}

/// The largest part that meets the clauses: what is wrong in a set is wrong in every part of it, so wrong positions are dropped until there is none.
fn largest(facts: &Facts, positions: &[Settled]) -> Vec<Settled> {
    let mut kept = positions.to_vec();
    loop {
        let set: HashMap<Position, Hash> = kept.iter().copied().collect();
        let before = kept.len();
        kept.retain(|(at, hash)| is_right(facts, &set, *at, hash));
        if kept.len() == before {
            return kept;
        }
    }
}

fn opened_with(store: &mut [u8], facts: &Facts, positions: &[Settled]) {
    assert_eq!(open(store, facts.length, facts.piece_length, facts.root).number, DONE);
    hold(store, facts, positions);
}

/// Loads saved bytes: an opening with the facts, then all positions held and all marks set. The count is the positions held.
pub fn load(store: &mut [u8], saved: &[u8]) -> Answer {
    match read(store.len(), saved) {
        Err(number) => Answer::refused(number),
        Ok((facts, content)) if meets(&facts, &content.positions) => {
            opened_with(store, &facts, &content.positions);
            for block in &content.marks {
                mark(store, &facts, *block..block + 1);
            }
            Answer::done(content.positions.len() as u64)
        }
        Ok(_) => Answer::refused(NOT_SAVED),
    }
}

/// Loads the largest part of saved bytes that meets the clauses, without their marks.
pub fn repair(store: &mut [u8], saved: &[u8]) -> Repaired {
    match read(store.len(), saved) {
        Err(number) => Repaired::refused(number),
        Ok((facts, content)) if content.positions.contains(&(facts.top(), facts.root)) => {
            let kept = largest(&facts, &content.positions);
            opened_with(store, &facts, &kept);
            let dropped = (content.positions.len() - kept.len()) as u64;
            Repaired { number: DONE, dropped, held: kept.len() as u64 }
        }
        Ok(_) => Repaired::refused(NOT_SAVED),
    }
}

#[cfg(test)]
mod tests {
    use super::*;
    use crate::limits::BLOCK;
    use crate::pieces::{judge_block, judge_piece};
    use crate::store::{held, store_size};
    use crate::tree::root_of_file;

    /// Five blocks, the last one short: h = 3, three padding leaves, one padding position above them.
    fn file() -> Vec<u8> {
        (0..4 * BLOCK as usize + 100).map(|i| (i * 31 + i / 253) as u8).collect()
    }

    fn opened() -> Vec<u8> {
        let bytes = file();
        let mut store = vec![0xaa; store_size(bytes.len() as u64, 131072).count as usize];
        open(&mut store, bytes.len() as u64, 131072, root_of_file(&bytes));
        store
    }

    fn whole() -> Vec<u8> {
        let mut store = opened();
        assert_eq!(judge_piece(&mut store, 0, &file()).number, DONE);
        let facts = facts_of(&store).unwrap();
        hold(&mut store, &facts, &crate::tree::of_file(&file()));
        store
    }

    fn saved(store: &[u8]) -> Vec<u8> {
        let mut out = vec![0; 2 * store.len()];
        let answer = save(store, &mut out);
        assert_eq!(answer.number, DONE);
        out.truncate(answer.count as usize);
        out
    }

    fn fresh() -> Vec<u8> {
        vec![0xbb; opened().len() + 3]
    }

    /// Where position record k begins.
    fn record(k: usize) -> usize {
        45 + 41 * k
    }

    #[test]
    fn the_form_to_the_byte() {
        let mut store = opened();
        let facts = facts_of(&store).unwrap();
        let mut expected = vec![1, 0, 0, 0, 0, 0, 1, 0, 100, 0, 2, 0, 0];
        expected.extend(facts.root);
        expected.extend([2, 0, 0, 0, 3, 0, 0, 0, 0]);
        expected.extend(facts.root);
        expected.extend([4, 0, 0, 0, 0]);
        assert_eq!(saved(&store), expected);
        mark(&mut store, &facts, 4..5);
        let end = expected.len() - 5;
        expected.truncate(end);
        expected.extend([3, 0, 0, 0, 4, 4, 0, 0, 0, 1]);
        assert_eq!(saved(&store), expected);
    }

    #[test]
    fn room_for_saving() {
        let store = whole();
        let size = saved(&store).len();
        assert_eq!(size, 50 + 41 * 15 + 5 * 5);
        let mut short = vec![7; size - 1];
        assert_eq!(save(&store, &mut short), Answer::refused(NO_ROOM));
        assert!(short.iter().all(|byte| *byte == 7));
        assert_eq!(save(&store, &mut vec![0; size]), Answer::done(size as u64));
        assert_eq!(save(&store[..100], &mut []), Answer::refused(UNUSABLE));
    }

    #[test]
    fn there_and_back() {
        for mut store in [opened(), whole()] {
            judge_block(&mut store, 2, &file()[2 * BLOCK as usize..3 * BLOCK as usize]);
            let bytes = saved(&store);
            let mut again = fresh();
            let count = load(&mut again, &bytes);
            assert_eq!(count.number, DONE);
            assert_eq!(again[..store.len()], store);
            assert_eq!(again[store.len()..], [0xbb; 3]);
            assert_eq!(saved(&again), bytes);
            let mut repaired = fresh();
            assert_eq!(repair(&mut repaired, &bytes), Repaired { number: DONE, dropped: 0, held: count.count });
            assert_eq!(repaired[..store.len() - 8], store[..store.len() - 8]);
            assert_eq!(repaired[store.len() - 8..store.len()], [0; 8], "no marks");
        }
    }

    #[test]
    fn no_proper_part_from_the_front_is_taken() {
        let bytes = saved(&whole());
        for size in 0..bytes.len() {
            let mut store = fresh();
            assert_eq!(load(&mut store, &bytes[..size]).number, NOT_SAVED);
            assert_eq!(repair(&mut store, &bytes[..size]).number, NOT_SAVED);
            assert_eq!(store, fresh());
        }
        let longer = [bytes.as_slice(), &[4]].concat();
        assert_eq!(load(&mut fresh(), &longer).number, NOT_SAVED);
    }

    #[test]
    fn numbers_in_their_order() {
        let mut bytes = saved(&opened());
        assert_eq!(load(&mut [], &bytes[..44]).number, NOT_SAVED);
        assert_eq!(load(&mut [], &bytes[..45]).number, UNUSABLE, "too little room with nothing behind the opening");
        bytes[1] = 0x80;
        assert_eq!(load(&mut [], &bytes[..45]).number, FACTS_OUT_OF_RANGE);
        assert_eq!(repair(&mut [], &bytes[..45]).number, FACTS_OUT_OF_RANGE);
        bytes[0] = 2;
        assert_eq!(load(&mut fresh(), &bytes).number, NOT_SAVED);
    }

    #[test]
    fn what_is_not_the_form() {
        let bytes = saved(&whole());
        let changed = |at: usize, value: u8| {
            let mut other = bytes.clone();
            other[at] = value;
            let mut store = fresh();
            assert_eq!(load(&mut store, &other).number, NOT_SAVED, "byte {at}");
            assert_eq!(repair(&mut store, &other).number, NOT_SAVED, "byte {at}");
            assert_eq!(store, fresh());
        };
        changed(record(0), 3); // a mark where a position is
        changed(record(3) + 8, 2); // index 3 becomes 2: not rising
        changed(record(7) + 8, 8); // index 8 of layer 0
        changed(record(14) + 4, 4); // layer 4
        changed(record(15) + 4, 5); // mark 0 becomes 5: no block
        changed(record(15) + 9, 0); // the second mark as the first
        changed(bytes.len() - 1, 4); // the count of marks
        changed(bytes.len() - 5, 3); // no end
    }

    #[test]
    fn what_does_not_chain_is_dropped() {
        let bytes = saved(&whole());
        // a leaf changed: it and its sibling go, with nothing below them
        let mut other = bytes.clone();
        other[record(2) + 20] ^= 1;
        let mut store = fresh();
        assert_eq!(load(&mut store, &other).number, NOT_SAVED);
        assert_eq!(store, fresh());
        assert_eq!(repair(&mut store, &other), Repaired { number: DONE, dropped: 2, held: 13 });
        assert_eq!(held(&store, 0, 2).number, NO_ANCHOR);
        assert_eq!(held(&store, 0, 3).number, NO_ANCHOR);
        assert_eq!(held(&store, 1, 1).number, DONE);
        // the left half's top changed: both halves go, and all below
        let mut other = bytes.clone();
        other[record(12) + 20] ^= 1;
        assert_eq!(repair(&mut fresh(), &other), Repaired { number: DONE, dropped: 14, held: 1 });
        // the root changed
        let mut other = bytes.clone();
        other[record(14) + 20] ^= 1;
        assert_eq!(repair(&mut fresh(), &other), Repaired::refused(NOT_SAVED));
        // a record left out: its sibling goes too
        let other = [&bytes[..record(2)], &bytes[record(3)..]].concat();
        assert_eq!(load(&mut fresh(), &other).number, NOT_SAVED);
        assert_eq!(repair(&mut fresh(), &other), Repaired { number: DONE, dropped: 1, held: 13 });
    }

    #[test]
    fn padding_must_have_its_value() {
        // Leaf 3 of three blocks is padding. The root is one that other hashes below give, as no file does.
        let (left, right) = ([1; 32], [2; 32]);
        let root = pair(&left, &right);
        let mut store = vec![0; store_size(3 * BLOCK, 16384).count as usize];
        open(&mut store, 3 * BLOCK, 16384, pair(&root, &root));
        let facts = facts_of(&store).unwrap();
        let at = |layer, index| Position { layer, index };
        hold(&mut store, &facts, &[(at(1, 0), root), (at(1, 1), root), (at(0, 0), left), (at(0, 1), right)]);
        assert_eq!(load(&mut vec![0; store.len()], &saved(&store)), Answer::done(5));
        hold(&mut store, &facts, &[(at(0, 2), left), (at(0, 3), right)]);
        assert_eq!(load(&mut vec![0; store.len()], &saved(&store)).number, NOT_SAVED);
        assert_eq!(repair(&mut vec![0; store.len()], &saved(&store)), Repaired { number: DONE, dropped: 2, held: 5 });
    }

    #[test]
    fn a_store_is_no_save_and_a_save_is_no_store() {
        let store = whole();
        assert_eq!(load(&mut fresh(), &store).number, NOT_SAVED);
        assert_eq!(held(&saved(&store), 0, 0).number, UNUSABLE);
    }
}
