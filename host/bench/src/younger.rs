//! Whether the largest file begins with an earlier one. All its blocks are the same, so that each layer has one hash.

use crate::measure::{Prepared, Work};
use reference::limits::{BLOCK, LARGEST_PIECE_LENGTH, LONGEST_FILE, TALLEST_TREE};
use reference::sha256::{pair, sha256, Hash};
use reference::store::{open, store_size, CELL, HEAD};
use reference::tree::padding;
use std::hint::black_box;
use std::iter::successors;

/// The hash of each layer.
fn at_layer(block: &[u8]) -> Vec<Hash> {
    successors(Some(sha256(block)), |below| Some(pair(below, below))).take(TALLEST_TREE as usize + 1).collect()
}

/// A store of the file that holds every position.
fn whole(layers: &[Hash]) -> Vec<u8> {
    let mut store = vec![0; store_size(LONGEST_FILE, LARGEST_PIECE_LENGTH).count as usize];
    open(&mut store, LONGEST_FILE, LARGEST_PIECE_LENGTH, layers[TALLEST_TREE as usize]);
    for node in 1..2usize << TALLEST_TREE {
        let cell = HEAD + CELL * (node - 1);
        store[cell] = 1;
        store[cell + 1..cell + CELL].copy_from_slice(&layers[TALLEST_TREE as usize - node.ilog2() as usize]);
    }
    store
}

/// An earlier file of the largest one, what is known of both, and the block over the earlier end.
struct Earlier {
    length: u64,
    root: Hash,
    block: Vec<u8>,
    layers: Vec<Hash>,
    store: Vec<u8>,
}

/// The earlier file's root from the layers' hashes: along its right edge.
fn earlier_root(length: u64, layers: &[Hash], block: &[u8]) -> Hash {
    let rest = (length % BLOCK) as usize;
    let mut edge = (rest != 0).then(|| sha256(&block[..rest]));
    let height = length.div_ceil(BLOCK).next_power_of_two().ilog2() as u64;
    for layer in 0..height {
        let is_odd = (length / BLOCK) >> layer & 1 == 1;
        edge = match (edge, is_odd) {
            (None, false) => None,
            (right, true) => Some(pair(&layers[layer as usize], &right.unwrap_or(padding(layer)))),
            (Some(left), false) => Some(pair(&left, &padding(layer))),
        };
    }
    edge.unwrap_or(layers[height as usize])
}

/// The call; and in plain Rust the hash of the block and the fold over the same hashes, with the padding values from a table.
pub fn extending(length: u64) -> Vec<Box<dyn Work>> {
    let state = || {
        let file: Vec<u8> = (0..BLOCK).map(|i| (i * 7 + i / 251) as u8).collect();
        let layers = at_layer(&file);
        let root = earlier_root(length, &layers, &file);
        let block = if length.is_multiple_of(BLOCK) { Vec::new() } else { file };
        Earlier { length, root, block, store: whole(&layers), layers }
    };
    let plain = work(state(), |earlier| {
        let Earlier { length, root, block, layers, .. } = black_box(earlier);
        assert!(block.is_empty() || sha256(block) == layers[0]);
        assert_eq!(earlier_root(*length, layers, block), *root);
    });
    let library = work(state(), |earlier| {
        let Earlier { length, root, block, store, .. } = black_box(earlier);
        let given = boundary::extends(store, *length, boundary::Hash { bytes: *root }, block);
        assert_eq!((given.number, given.count), (0, *length));
    });
    vec![plain, library]
}

fn work(state: Earlier, run: fn(&mut Earlier)) -> Box<dyn Work> {
    Box::new(Prepared { state, prepare: |_| (), run })
}
