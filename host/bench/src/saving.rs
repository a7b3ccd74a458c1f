//! A store with all hashes held and all blocks marked: saved, loaded from its save, repaired.

use crate::measure::{Prepared, Work};
use crate::plain::{Hasher, Store};
use reference::limits::BLOCK;
use reference::sha256::{pair, Hash};
use reference::store::{store_size, CELL, HEAD};
use std::hint::black_box;

const PIECE: u64 = 1 << 20;

fn work<S: 'static>(state: S, prepare: fn(&mut S), run: fn(&mut S)) -> Box<dyn Work> {
    Box::new(Prepared { state, prepare, run })
}

/// A file whose blocks are all alike, so that its tree costs two hashes for each layer: inside, and at the end of the file.
pub struct Full {
    blocks: usize,
    height: usize,
    /// By layer: the hash above blocks of the file, above its last block, above padding.
    inside: Vec<Hash>,
    last: Vec<Hash>,
    padding: Vec<Hash>,
}

impl Full {
    pub fn new(blocks: usize) -> Full {
        let height = blocks.next_power_of_two().trailing_zeros() as usize;
        let mut full = Full { blocks, height, inside: vec![[7; 32]], last: vec![[7; 32]], padding: vec![[0; 32]] };
        for layer in 0..height {
            let (inside, last, padding) = (full.inside[layer], full.last[layer], full.padding[layer]);
            let is_left = (full.covering(layer) - 1).is_multiple_of(2);
            full.inside.push(pair(&inside, &inside));
            full.last.push(if is_left { pair(&last, &padding) } else { pair(&inside, &last) });
            full.padding.push(pair(&padding, &padding));
        }
        full
    }

    fn covering(&self, layer: usize) -> usize {
        self.blocks.div_ceil(1 << layer)
    }

    fn length(&self) -> u64 {
        self.blocks as u64 * BLOCK
    }

    fn root(&self) -> Hash {
        self.last[self.height]
    }

    fn hash(&self, layer: usize, index: usize) -> Hash {
        let covering = self.covering(layer);
        let row = if index + 1 < covering {
            &self.inside
        } else if index < covering {
            &self.last
        } else {
            &self.padding
        };
        row[layer]
    }

    /// Every position, by layer and then index.
    fn positions(&self) -> impl Iterator<Item = (usize, usize)> + '_ {
        (0..=self.height).flat_map(|layer| (0..1 << (self.height - layer)).map(move |index| (layer, index)))
    }

    /// The store in the library's layout.
    fn store(&self) -> Vec<u8> {
        let mut store = self.memory();
        reference::store::open(&mut store, self.length(), PIECE, self.root());
        for (layer, index) in self.positions() {
            let cell = HEAD + CELL * ((1 << (self.height - layer)) + index - 1);
            store[cell] = 1;
            store[cell + 1..cell + CELL].copy_from_slice(&self.hash(layer, index));
        }
        let marks = HEAD + CELL * ((2 << self.height) - 1);
        store[marks..marks + self.blocks].fill(1);
        store
    }

    /// The store in plain Rust, with its marks.
    fn plain_store(&self, hasher: Hasher) -> (Store, Vec<bool>) {
        let mut store = Store::open(self.length(), PIECE, self.root(), hasher);
        for (layer, index) in self.positions() {
            store.nodes[(1 << (self.height - layer)) + index] = Some(self.hash(layer, index));
        }
        (store, vec![true; self.blocks])
    }

    /// Memory for a store.
    fn memory(&self) -> Vec<u8> {
        vec![0; store_size(self.length(), PIECE).count as usize]
    }

    fn held(&self) -> usize {
        (2 << self.height) - 1
    }

    pub fn saved_size(&self) -> usize {
        50 + 41 * self.held() + 5 * self.blocks
    }

    fn saved(&self, hasher: Hasher) -> Vec<u8> {
        let (store, marks) = self.plain_store(hasher);
        let mut out = vec![0; self.saved_size()];
        assert_eq!(store.save(&marks, &mut out), Some(self.saved_size()));
        out
    }
}

/// Loading the save, in Rust by each hasher and by the library.
pub fn loading(blocks: usize, hashers: [Hasher; 3]) -> Vec<Box<dyn Work>> {
    let full = Full::new(blocks);
    let saved = full.saved(hashers[0]);
    let in_rust = hashers.map(|hasher| {
        work(
            (hasher, saved.clone(), full.root(), blocks),
            |_| (),
            |(hasher, saved, root, blocks)| {
                let (store, marks) = black_box(Store::load(black_box(saved), *hasher)).expect("a store's save");
                assert_eq!((store.nodes[1], marks.len()), (Some(*root), *blocks));
            },
        )
    });
    let in_library = work(
        (full.memory(), saved, full.held()),
        |_| (),
        |(store, saved, held)| {
            let answer = black_box(boundary::load(store, black_box(saved)));
            assert_eq!((answer.number, answer.count), (0, *held as u64));
        },
    );
    in_rust.into_iter().chain([in_library]).collect()
}

/// Repairing a save that needs none, against loading it.
pub fn repairing(blocks: usize, hasher: Hasher) -> Vec<Box<dyn Work>> {
    let full = Full::new(blocks);
    let saved = full.saved(hasher);
    let loading = work(
        (full.memory(), saved.clone()),
        |_| (),
        |(store, saved)| assert_eq!(black_box(boundary::load(store, black_box(saved))).number, 0),
    );
    let repairing = work(
        (full.memory(), saved, full.held()),
        |_| (),
        |(store, saved, held)| {
            let answer = black_box(boundary::repair(store, black_box(saved)));
            assert_eq!((answer.number, answer.dropped, answer.held), (0, 0, *held as u64));
        },
    );
    vec![loading, repairing]
}

/// Saving, against a copy of as many bytes: by the C library, and 64 bytes a turn; and against plain Rust.
pub fn saving(blocks: usize, hasher: Hasher) -> Vec<Box<dyn Work>> {
    let full = Full::new(blocks);
    let out = || vec![0u8; full.saved_size()];
    let copy = |by: fn(&mut [u8], &[u8])| {
        work((by, full.saved(hasher), out()), |_| (), |(by, saved, out)| by(black_box(out), black_box(saved)))
    };
    let (store, marks) = full.plain_store(hasher);
    let plain = work(
        (store, marks, out()),
        |_| (),
        |(store, marks, out)| assert_eq!(black_box(store.save(marks, black_box(out))), Some(out.len())),
    );
    let library = work(
        (full.store(), out()),
        |_| (),
        |(store, out)| assert_eq!(black_box(boundary::save(black_box(store), out)).count, out.len() as u64),
    );
    vec![copy(|to, from| to.copy_from_slice(from)), copy(in_chunks), plain, library]
}

fn in_chunks(to: &mut [u8], from: &[u8]) {
    crate::framing::copy::<true>(to, from);
}
