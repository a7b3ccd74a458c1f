//! A store as an ordinary Rust programmer writes it, for comparison: an `Option` for each node, a `Vec` for what a message
//! settles, every hash worked out once, alone or eight at a time.

use reference::limits::{LARGEST_PIECE_LENGTH, LONGEST_FILE, LONGEST_RUN};
use reference::sha256::Hash;

const BLOCK: usize = 16384;
const HEAD: usize = 49;
/// The records of a save: its opening, a position, a mark or the end.
const OPENING: usize = 45;
const POSITION: usize = 41;
const MARK: usize = 5;

pub struct Store {
    root: Hash,
    length: u64,
    blocks: usize,
    height: u32,
    piece_length: usize,
    /// By node number: the root is 1, the children of n are 2n and 2n + 1.
    pub nodes: Vec<Option<Hash>>,
    padding: Vec<Hash>,
    hasher: Hasher,
}

/// The hashes of eight messages of one length.
pub type Eight = fn([&[u8]; 8]) -> [Hash; 8];

/// How a version hashes: one message, and eight of one length side by side where it can.
#[derive(Clone, Copy)]
pub struct Hasher {
    pub one: fn(&[u8]) -> Hash,
    pub eight: Option<Eight>,
}

impl Hasher {
    /// The hashes of the parts of this size, the last one perhaps shorter.
    pub fn parts(self, data: &[u8], size: usize) -> Vec<Hash> {
        let mut hashes = Vec::with_capacity(data.len().div_ceil(size));
        let mut rest = data;
        if let Some(eight) = self.eight {
            let mut eights = data.chunks_exact(8 * size);
            for part in &mut eights {
                hashes.extend(eight(std::array::from_fn(|i| &part[i * size..(i + 1) * size])));
            }
            rest = eights.remainder();
        }
        hashes.extend(rest.chunks(size).map(self.one));
        hashes
    }

    /// The root of the tree over a row of 2^k hashes.
    pub fn root(self, mut row: Vec<Hash>) -> Hash {
        while row.len() > 1 {
            row = self.parts(row.as_flattened(), 64);
        }
        row[0]
    }
}

fn joined(left: &Hash, right: &Hash) -> [u8; 64] {
    let mut both = [0; 64];
    both[..32].copy_from_slice(left);
    both[32..].copy_from_slice(right);
    both
}

struct Header {
    base: u32,
    index: usize,
    length: usize,
    uncles: usize,
}

impl Store {
    pub fn open(length: u64, piece_length: u64, root: Hash, hasher: Hasher) -> Store {
        let blocks = (length as usize).div_ceil(BLOCK);
        let height = blocks.next_power_of_two().trailing_zeros();
        let mut nodes = vec![None; 2 << height];
        nodes[1] = Some(root);
        let mut padding = vec![[0; 32]];
        for layer in 0..height as usize {
            padding.push((hasher.one)(&[padding[layer]; 2].concat()));
        }
        Store { root, length, blocks, height, piece_length: piece_length as usize, nodes, padding, hasher }
    }

    /// Takes a hashes message, and says how many positions are newly held.
    pub fn take(&mut self, message: &[u8]) -> Option<u64> {
        let header = self.header(message, 22)?;
        if message.len() != HEAD + 32 * (header.length + header.uncles) {
            return None;
        }
        let settled = self.settled(&header, &message[HEAD..])?;
        let &(anchor, top) = settled.last()?;
        if self.nodes[anchor] != Some(top) || !self.agree(&settled) {
            return None;
        }
        let mut newly = 0;
        for (node, hash) in settled {
            newly += self.nodes[node].replace(hash).is_none() as u64;
        }
        Some(newly)
    }

    /// Answers a request with the hashes held, if they all are.
    pub fn serve(&self, request: &[u8], reply: &mut Vec<u8>) -> bool {
        reply.clear();
        let Some(header) = self.header(request, 21) else { return false };
        reply.push(22);
        reply.extend_from_slice(&request[1..HEAD]);
        let first = self.first_node(&header);
        let path = (0..header.uncles).map(|uncle| (first >> (header.length.trailing_zeros() as usize + uncle)) ^ 1);
        for node in (first..first + header.length).chain(path) {
            let Some(hash) = &self.nodes[node] else { return false };
            reply.extend_from_slice(hash);
        }
        true
    }

    /// Loads the piece layer, padded, and says how many positions are newly held.
    pub fn load_layer(&mut self, layer: &[u8]) -> Option<u64> {
        let base = (self.piece_length / BLOCK).trailing_zeros();
        let first = 1 << (self.height - base);
        let mut worked_out: Vec<(usize, Hash)> = Vec::with_capacity(2 * first);
        worked_out.extend(layer.chunks(32).enumerate().map(|(i, hash)| (first + i, hash.try_into().unwrap())));
        worked_out.extend((worked_out.len()..first).map(|missing| (first + missing, self.padding[base as usize])));
        self.add_parents(&mut worked_out, first);
        if worked_out.last().is_none_or(|&(_, top)| self.nodes[1] != Some(top)) || !self.agree(&worked_out) {
            return None;
        }
        let mut newly = 0;
        for (node, hash) in worked_out {
            newly += self.nodes[node].replace(hash).is_none() as u64;
        }
        Some(newly)
    }

    /// Whether a piece has the hash held for it and contradicts none below.
    pub fn judge_piece(&self, piece: usize, data: &[u8]) -> bool {
        let leaves = self.piece_length / BLOCK;
        let first = (1 << self.height) + piece * leaves;
        let mut worked_out: Vec<(usize, Hash)> = Vec::with_capacity(2 * leaves);
        worked_out.extend((first..).zip(self.hasher.parts(data, BLOCK)));
        worked_out.extend((worked_out.len()..leaves).map(|missing| (first + missing, [0; 32])));
        self.add_parents(&mut worked_out, leaves);
        worked_out.last().is_some_and(|&(node, hash)| self.nodes[node] == Some(hash)) && self.agree(&worked_out)
    }

    /// Writes what is held and marked, and says how many bytes that are.
    pub fn save(&self, marks: &[bool], out: &mut [u8]) -> Option<usize> {
        let held = self.nodes.iter().flatten().count();
        let marked = marks.iter().filter(|is_marked| **is_marked).count();
        let size = OPENING + POSITION * held + MARK * marked + MARK;
        let (opening, rest) = out.get_mut(..size)?.split_at_mut(OPENING);
        let (positions, rest) = rest.split_at_mut(POSITION * held);
        let (marked_blocks, end) = rest.split_at_mut(MARK * marked);
        opening[0] = 1;
        opening[1..9].copy_from_slice(&self.length.to_be_bytes());
        opening[9..13].copy_from_slice(&(self.piece_length as u32).to_be_bytes());
        opening[13..].copy_from_slice(&self.root);
        let places = (0..=self.height).flat_map(|layer| {
            let width = 1 << (self.height - layer);
            let row = self.nodes[width..2 * width].iter().enumerate();
            row.filter_map(move |(index, hash)| Some((layer, index as u32, hash.as_ref()?)))
        });
        for (record, (layer, index, hash)) in positions.chunks_exact_mut(POSITION).zip(places) {
            record[0] = 2;
            record[1..5].copy_from_slice(&layer.to_be_bytes());
            record[5..9].copy_from_slice(&index.to_be_bytes());
            record[9..].copy_from_slice(hash);
        }
        let blocks = marks.iter().enumerate().filter(|(_, is_marked)| **is_marked);
        for (record, (block, _)) in marked_blocks.chunks_exact_mut(MARK).zip(blocks) {
            record[0] = 3;
            record[1..].copy_from_slice(&(block as u32).to_be_bytes());
        }
        end[0] = 4;
        end[1..].copy_from_slice(&(marked as u32).to_be_bytes());
        Some(size)
    }

    /// The store that was saved, and its marks: if the bytes have the form, and the positions chain to the root.
    pub fn load(saved: &[u8], hasher: Hasher) -> Option<(Store, Vec<bool>)> {
        let word = |bytes: &[u8]| u32::from_be_bytes(bytes.try_into().unwrap());
        let (opening, rest) = saved.split_at_checked(OPENING)?;
        let length = u64::from_be_bytes(opening[1..9].try_into().unwrap());
        let piece_length = word(&opening[9..13]) as u64;
        let in_range = (1..=LONGEST_FILE).contains(&length)
            && piece_length.is_power_of_two()
            && (BLOCK as u64..=LARGEST_PIECE_LENGTH).contains(&piece_length);
        if opening[0] != 1 || !in_range {
            return None;
        }
        let (rest, end) = rest.split_at_checked(rest.len().checked_sub(MARK)?)?;
        let marked = word(&end[1..]) as usize;
        let (positions, marked_blocks) = rest.split_at_checked(rest.len().checked_sub(MARK * marked)?)?;
        if end[0] != 4 || positions.len() % POSITION != 0 {
            return None;
        }
        let mut store = Store::open(length, piece_length, opening[13..].try_into().unwrap(), hasher);
        let root = store.nodes[1].take();
        let mut last = None;
        for record in positions.chunks_exact(POSITION) {
            let (layer, index) = (word(&record[1..5]), word(&record[5..9]) as usize);
            let in_tree = layer <= store.height && index < 1 << (store.height - layer);
            if record[0] != 2 || !in_tree || last.is_some_and(|last| last >= (layer, index)) {
                return None;
            }
            last = Some((layer, index));
            let node = (1 << (store.height - layer)) + index;
            let hash = record[9..].try_into().unwrap();
            if !store.is_right_padding(node, &hash) {
                return None;
            }
            store.nodes[node] = Some(hash);
        }
        if store.nodes[1] != root || !store.has_families() {
            return None;
        }
        let mut marks = vec![false; store.blocks];
        let mut next = 0;
        for record in marked_blocks.chunks_exact(MARK) {
            let block = word(&record[1..]) as usize;
            if record[0] != 3 || block < next {
                return None;
            }
            *marks.get_mut(block)? = true;
            next = block + 1;
        }
        Some((store, marks))
    }

    /// Whether every position but the root is held with its sibling and its parent, and the parent is the hash of the two.
    fn has_families(&self) -> bool {
        let mut both = Vec::with_capacity(8);
        for (parent, children) in self.nodes.chunks_exact(2).enumerate().skip(1) {
            match (self.nodes[parent], children[0], children[1]) {
                (_, None, None) => (),
                (Some(above), Some(left), Some(right)) => both.push((above, joined(&left, &right))),
                _ => return false,
            }
            if both.len() == 8 && !self.are_parents(&mut both) {
                return false;
            }
        }
        self.are_parents(&mut both)
    }

    /// Whether each hash is that of the two beside it, eight at a time where that can be.
    fn are_parents(&self, both: &mut Vec<(Hash, [u8; 64])>) -> bool {
        let of_eight = match (self.hasher.eight, <&[_; 8]>::try_from(&both[..])) {
            (Some(eight), Ok(all)) => Some(eight(all.each_ref().map(|(_, two)| &two[..]))),
            _ => None,
        };
        let hashes = (0..).map(|i| of_eight.map_or_else(|| (self.hasher.one)(&both[i].1), |hashes| hashes[i]));
        let is_right = both.iter().zip(hashes).all(|((above, _), hash)| *above == hash);
        both.clear();
        is_right
    }

    /// The header of a message of this id, if it obeys the rules.
    fn header(&self, message: &[u8], id: u8) -> Option<Header> {
        if message.len() < HEAD || message[0] != id || message[1..33] != self.root {
            return None;
        }
        let word = |at: usize| u32::from_be_bytes(message[at..at + 4].try_into().unwrap());
        let (base, index, length, proof) = (word(33), word(37), word(41), word(45));
        let layers = length.trailing_zeros();
        let obeys = length.is_power_of_two()
            && (2..=LONGEST_RUN).contains(&length)
            && index % length == 0
            && base as u64 + layers as u64 <= self.height as u64
            && (base as u64 + proof as u64) < self.height as u64
            && (index as usize) < self.blocks.div_ceil(1 << base);
        let uncles = proof.saturating_sub(layers.saturating_sub(1)) as usize;
        obeys.then_some(Header { base, index: index as usize, length: length as usize, uncles })
    }

    fn first_node(&self, header: &Header) -> usize {
        (1 << (self.height - header.base)) + header.index
    }

    /// Every position that a message settles with its hash, the anchor last, unless a padding hash is wrong.
    fn settled(&self, header: &Header, hashes: &[u8]) -> Option<Vec<(usize, Hash)>> {
        let mut hashes = hashes.chunks_exact(32).map(|bytes| Hash::try_from(bytes).unwrap());
        let mut settled = Vec::with_capacity(2 * (header.length + header.uncles));
        settled.extend((self.first_node(header)..).zip(hashes.by_ref().take(header.length)));
        if !settled.iter().all(|(node, hash)| self.is_right_padding(*node, hash)) {
            return None;
        }
        self.add_parents(&mut settled, header.length);
        for uncle in hashes {
            let &(node, hash) = settled.last()?;
            if !self.is_right_padding(node ^ 1, &uncle) {
                return None;
            }
            let (left, right) = if node % 2 == 0 { (hash, uncle) } else { (uncle, hash) };
            settled.push((node ^ 1, uncle));
            settled.push((node / 2, self.pair(&left, &right)));
        }
        Some(settled)
    }

    /// The parents of a run of leaves, row by row: number i is above 2i and 2i + 1.
    fn add_parents(&self, row: &mut Vec<(usize, Hash)>, leaves: usize) {
        let mut first = 0;
        if let Some(eight) = self.hasher.eight {
            while first + 16 <= leaves {
                let below: [(usize, [u8; 64]); 8] = std::array::from_fn(|i| {
                    let ((node, left), (_, right)) = (row[2 * (first + i)], row[2 * (first + i) + 1]);
                    (node, joined(&left, &right))
                });
                let hashes = eight(below.each_ref().map(|(_, both)| &both[..]));
                row.extend(below.iter().zip(hashes).map(|((node, _), hash)| (node / 2, hash)));
                first += 8;
            }
        }
        for parent in first..leaves - 1 {
            let ((node, left), (_, right)) = (row[2 * parent], row[2 * parent + 1]);
            row.push((node / 2, self.pair(&left, &right)));
        }
    }

    fn pair(&self, left: &Hash, right: &Hash) -> Hash {
        (self.hasher.one)(&joined(left, right))
    }

    fn is_right_padding(&self, node: usize, hash: &Hash) -> bool {
        let layer = self.height - node.ilog2();
        let index = node - (1 << node.ilog2());
        index < self.blocks.div_ceil(1 << layer) || *hash == self.padding[layer as usize]
    }

    /// No held hash differs from what was worked out.
    fn agree(&self, worked_out: &[(usize, Hash)]) -> bool {
        worked_out.iter().all(|(node, hash)| self.nodes[*node].is_none_or(|held| held == *hash))
    }
}
