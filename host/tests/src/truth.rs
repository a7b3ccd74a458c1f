//! Files with their true trees, and the true messages and layers about them.

use crate::random::Random;
use reference::limits::{BLOCK, LONGEST_RUN};
use reference::messages::{Header, HASHES};
use reference::sha256::{sha256, Hash};
use reference::tree::{over_run, Facts, Position};
use std::collections::HashMap;

/// A file's facts and tree; its bytes too, where blocks and pieces are to be judged.
#[derive(Clone)]
pub struct Truth {
    pub facts: Facts,
    tree: HashMap<Position, Hash>,
    pub bytes: Vec<u8>,
}

impl Truth {
    /// A file of which only the leaves are known: cheap, and as good as any file for messages.
    pub fn of_leaves(length: u64, piece_length: u64, random: &mut Random) -> Truth {
        let blocks = length.div_ceil(BLOCK);
        Truth::new(length, piece_length, (0..blocks).map(|_| random.hash()).collect(), Vec::new())
    }

    pub fn of_bytes(bytes: Vec<u8>, piece_length: u64) -> Truth {
        let leaves = bytes.chunks(BLOCK as usize).map(sha256).collect();
        Truth::new(bytes.len() as u64, piece_length, leaves, bytes)
    }

    fn new(length: u64, piece_length: u64, mut leaves: Vec<Hash>, bytes: Vec<u8>) -> Truth {
        leaves.resize(leaves.len().next_power_of_two(), [0; 32]);
        let tree = over_run(Position { layer: 0, index: 0 }, &leaves);
        let root = tree.last().unwrap().1;
        Truth { facts: Facts { length, piece_length, root }, tree: tree.into_iter().collect(), bytes }
    }

    /// The hash at a position, or zeros where the tree has no such position.
    pub fn at(&self, at: Position) -> Hash {
        self.tree.get(&at).copied().unwrap_or([0; 32])
    }

    pub fn positions(&self) -> impl Iterator<Item = (&Position, &Hash)> {
        self.tree.iter()
    }

    /// A header that obeys the rules, unless the file has one block and no header does.
    pub fn header(&self, random: &mut Random) -> Option<Header> {
        let height = self.facts.height();
        let base = random.below(height.max(1));
        let run_layers = random.between(1, (height.checked_sub(base)?).clamp(1, LONGEST_RUN.ilog2() as u64));
        let runs = 1 << height.checked_sub(base + run_layers)?;
        let header = Header {
            root: self.facts.root,
            base: base as u32,
            index: (random.below(runs) << run_layers) as u32,
            length: 1 << run_layers,
            proof: random.below(height.saturating_sub(base).max(1)) as u32,
        };
        header.obeys_the_rules(&self.facts).then_some(header)
    }

    /// The hashes message of a header that obeys the rules.
    pub fn message(&self, header: &Header) -> Vec<u8> {
        let mut message = header.write(HASHES);
        for at in header.given_positions() {
            message.extend_from_slice(&self.at(at));
        }
        message
    }

    /// The file's piece layer; empty if it has none.
    pub fn layer(&self) -> Vec<u8> {
        if !self.facts.has_piece_layer() {
            return Vec::new();
        }
        let layer = self.facts.piece_layer();
        (0..self.facts.pieces()).flat_map(|index| self.at(Position { layer, index })).collect()
    }

    /// Bytes of a block or a piece: the file's own, if they are known.
    pub fn part(&self, number: u64, size_of_part: u64, size: u64) -> Vec<u8> {
        let start = number.saturating_mul(size_of_part).min(self.bytes.len() as u64) as usize;
        let mut part = self.bytes[start..].to_vec();
        part.resize(size as usize, 0);
        part
    }
}

/// A file, and another of the same facts but for the root: its replies are well-formed and wrong.
pub struct Pair {
    pub truth: Truth,
    pub forged: Truth,
}

impl Pair {
    pub fn new(truth: Truth, random: &mut Random) -> Pair {
        let forged = Truth::of_leaves(truth.facts.length, truth.facts.piece_length, random);
        Pair { truth, forged }
    }
}

const PIECE_LENGTHS: [u64; 5] = [16384, 32768, 65536, 1 << 20, 1 << 24];

/// A file with a small tree, its length often at the edge of a block or of a height.
pub fn small(random: &mut Random) -> Truth {
    let most = random.pick(&[2, 3, 5, 9, 9, 9, 20, 40]);
    let blocks = random.between(1, most);
    let length = match random.below(3) {
        0 => blocks * BLOCK,
        1 => blocks * BLOCK - random.below(BLOCK),
        _ => (blocks - 1) * BLOCK + 1,
    };
    let piece_length = random.pick(&PIECE_LENGTHS);
    Truth::of_leaves(length, piece_length, random)
}

/// Files with their bytes, made once: hashing them is most of what their cases cost.
pub fn with_bytes(random: &mut Random) -> Vec<Pair> {
    let lengths = [1, 100, 16383, 16384, 16385, 32769, 50_000, 81920, 100_000, 200_000];
    let pieces = [16384, 16384, 16384, 1 << 24, 16384, 32768, 65536, 65536, 65536, 32768];
    let files = lengths.into_iter().zip(pieces);
    files.map(|(length, piece)| Pair::new(Truth::of_bytes(random.bytes(length), piece), random)).collect()
}
