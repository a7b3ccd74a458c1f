//! What to ask for next on the largest file: its 2^20 leaves, and its 1024 pieces of 16 MiB.

use crate::measure::{Prepared, Work};
use reference::limits::{BLOCK, LARGEST_PIECE_LENGTH, LONGEST_FILE, LONGEST_RUN};
use reference::store::{store_size, CELL, HEAD};
use std::hint::black_box;

const LEAVES: usize = (LONGEST_FILE / BLOCK) as usize;
const PIECES: usize = (LONGEST_FILE / LARGEST_PIECE_LENGTH) as usize;
const EACH: usize = LEAVES / PIECES;
/// The cell of the first leaf, and the first mark.
const FIRST: usize = HEAD + CELL * (LEAVES - 1);
const MARKS: usize = HEAD + CELL * (2 * LEAVES - 1);

fn work<S: 'static>(state: S, prepare: fn(&mut S), run: fn(&mut S)) -> Box<dyn Work> {
    Box::new(Prepared { state, prepare, run })
}

fn opened() -> Vec<u8> {
    let mut store = vec![0; store_size(LONGEST_FILE, LARGEST_PIECE_LENGTH).count as usize];
    reference::store::open(&mut store, LONGEST_FILE, LARGEST_PIECE_LENGTH, [7; 32]);
    store
}

/// Makes leaves held, whatever their hashes.
fn hold(store: &mut [u8], leaves: std::ops::Range<usize>) {
    leaves.for_each(|leaf| store[FIRST + CELL * leaf] = 1);
}

/// The one leaf that isn't held is the last: every position is looked at.
pub fn last_leaf() -> Vec<Box<dyn Work>> {
    let held = || {
        let mut store = opened();
        hold(&mut store, 0..LEAVES - 1);
        store
    };
    let plain = work(
        held(),
        |_| (),
        |store| {
            let store = black_box(&store[..]);
            let lowest = (0..LEAVES).position(|leaf| store[FIRST + CELL * leaf] != 1);
            assert_eq!(black_box(lowest), Some(LEAVES - 1));
        },
    );
    let library = work(
        held(),
        |_| (),
        |store| {
            let request = boundary::next_request(black_box(store), 0);
            assert_eq!((request.asks, request.index), (1, LEAVES as u32 - LONGEST_RUN));
        },
    );
    vec![plain, library]
}

/// All leaves, a run at a time: 128 requests, and what each asks for is held before the next. Against the holding alone.
pub fn all_leaves() -> Vec<Box<dyn Work>> {
    let forget = |store: &mut Vec<u8>| (0..LEAVES).for_each(|leaf| store[FIRST + CELL * leaf] = 0);
    let none = work(opened(), forget, |store| {
        for number in 0..LEAVES / LONGEST_RUN as usize {
            hold(store, number * LONGEST_RUN as usize..(number + 1) * LONGEST_RUN as usize);
        }
    });
    let library = work(opened(), forget, |store| {
        for number in 0..LEAVES / LONGEST_RUN as usize {
            let request = boundary::next_request(black_box(store), 0);
            assert_eq!((request.asks, request.index), (1, number as u32 * LONGEST_RUN));
            hold(store, number * LONGEST_RUN as usize..(number + 1) * LONGEST_RUN as usize);
        }
        assert_eq!(boundary::next_request(black_box(store), 0).asks, 0);
    });
    vec![none, library]
}

/// Every block but the last is marked, and each piece is rarer than those before it: every mark is looked at.
pub fn last_piece() -> Vec<Box<dyn Work>> {
    let state = || {
        let mut store = opened();
        store[MARKS..MARKS + LEAVES - 1].fill(1);
        let counts: Vec<u32> = (0..PIECES as u32).rev().map(|count| count + 1).collect();
        (store, counts)
    };
    let plain = work(
        state(),
        |_| (),
        |(store, counts)| {
            let (marks, counts) = (black_box(&store[MARKS..MARKS + LEAVES]), black_box(&counts[..]));
            let is_on_disk = |piece: &usize| marks[piece * EACH..(piece + 1) * EACH].iter().all(|mark| *mark == 1);
            let to_fetch = (0..PIECES).filter(|piece| counts[*piece] > 0 && !is_on_disk(piece));
            assert_eq!(black_box(to_fetch.min_by_key(|piece| counts[*piece])), Some(PIECES - 1));
        },
    );
    let library = work(
        state(),
        |_| (),
        |(store, counts)| {
            let choice = boundary::pick_piece(black_box(store), black_box(counts));
            assert_eq!((choice.found, choice.piece), (1, PIECES as u64 - 1));
        },
    );
    vec![plain, library]
}

/// All pieces, as common as each other, one after the other: 1024 picks, and each is on disk before the next. Against the marking alone.
pub fn all_pieces() -> Vec<Box<dyn Work>> {
    let forget = |(store, _): &mut (Vec<u8>, Vec<u32>)| store[MARKS..MARKS + LEAVES].fill(0);
    let state = || (opened(), vec![3; PIECES]);
    let none = work(state(), forget, |(store, _)| {
        for piece in 0..PIECES {
            store[MARKS + piece * EACH..MARKS + (piece + 1) * EACH].fill(1);
        }
    });
    let library = work(state(), forget, |(store, counts)| {
        for piece in 0..PIECES {
            let choice = boundary::pick_piece(black_box(store), black_box(counts));
            assert_eq!((choice.found, choice.piece), (1, piece as u64));
            store[MARKS + piece * EACH..MARKS + (piece + 1) * EACH].fill(1);
        }
        assert_eq!(boundary::pick_piece(black_box(store), black_box(counts)).found, 0);
    });
    vec![none, library]
}
