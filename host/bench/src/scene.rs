//! A file of 65,536 blocks, and a reply of 512 leaves with 7 uncles that chains to its root; or sixteen times both.
//!
//! All blocks outside the run are alike, so that the tree costs a few hundred hashes and not 131,071, or a few thousand.

use reference::limits::{BLOCK, LONGEST_RUN, TALLEST_TREE};
use reference::messages::{Header, HASHES, REQUEST};
use reference::sha256::{pair, Hash};
use reference::store::{self, hold, store_size};
use reference::tree::{Facts, Settled};

pub const PIECE: u64 = 1 << 20;

/// The height of a full tree, and the leaves of a run in it.
#[derive(Clone, Copy)]
pub struct Size {
    height: u32,
    pub run: u32,
}

pub const ONE_GIB: Size = Size { height: 16, run: 512 };
pub const LARGEST: Size = Size { height: TALLEST_TREE as u32, run: LONGEST_RUN };

impl Size {
    /// Those from the run's top to the root.
    pub fn uncles(self) -> u32 {
        self.height - self.run.ilog2()
    }

    /// The bytes of the reply.
    pub fn reply(self) -> usize {
        49 + 32 * (self.run + self.uncles()) as usize
    }

    fn length(self) -> u64 {
        BLOCK << self.height
    }

    /// A run somewhere inside, so that the path to the root turns left and right.
    fn index(self) -> u32 {
        77 * self.run
    }

    /// The piece whose blocks the run begins with.
    pub fn piece_number(self) -> u64 {
        self.index() as u64 * BLOCK / PIECE
    }
}

pub struct Scene {
    pub size: Size,
    pub facts: Facts,
    pub header: Header,
    pub hashes: Vec<Hash>,
    /// What the reply settles; the root is last.
    pub settled: Vec<Settled>,
}

impl Scene {
    /// The scene of this size whose run has these leaves.
    pub fn new(size: Size, leaves: Vec<Hash>) -> Scene {
        assert_eq!(leaves.len(), size.run as usize);
        let mut header =
            Header { root: [0; 32], base: 0, index: size.index(), length: size.run, proof: size.height - 1 };
        assert_eq!(header.uncles(), size.uncles() as u64);
        let hashes: Vec<Hash> = leaves.into_iter().chain(uncles(size)).collect();
        let settled = header.settled(&hashes);
        header.root = settled.last().expect("a reply settles its anchor").1;
        let facts = Facts { length: size.length(), piece_length: PIECE, root: header.root };
        Scene { size, facts, header, hashes, settled }
    }

    /// The scene with leaves that are no block's hash.
    pub fn without_bytes(size: Size) -> Scene {
        Scene::new(size, (0..size.run).map(|number| [number as u8 ^ (number >> 8) as u8; 32]).collect())
    }

    pub fn reply(&self) -> Vec<u8> {
        [self.header.write(HASHES), self.hashes.concat()].concat()
    }

    pub fn request(&self) -> Vec<u8> {
        self.header.write(REQUEST)
    }

    /// The node number of each settled position: the root is 1, the children of n are 2n and 2n + 1.
    pub fn nodes(&self) -> Vec<usize> {
        self.settled.iter().map(|(at, _)| (self.facts.width(at.layer) + at.index) as usize).collect()
    }

    /// A store of the library's layout with the root alone held. The reference writes it, which costs no hashing and few
    /// instructions.
    pub fn opened(&self) -> Vec<u8> {
        let mut bytes = vec![0; store_size(self.facts.length, self.facts.piece_length).count as usize];
        store::open(&mut bytes, self.facts.length, self.facts.piece_length, self.facts.root);
        bytes
    }

    /// The same with everything held that the reply settles.
    pub fn told(&self) -> Vec<u8> {
        let mut bytes = self.opened();
        hold(&mut bytes, &self.facts, &self.settled);
        bytes
    }
}

/// The siblings of the path from the run's top to the root's children: each is above blocks that are alike.
fn uncles(size: Size) -> impl Iterator<Item = Hash> {
    let above = |below: &Hash| Some(pair(below, below));
    std::iter::successors(Some([1; 32]), above).skip(size.run.ilog2() as usize).take(size.uncles() as usize)
}
