//! Trees of every height up to the tallest, runs up to the longest and one longer: the library and the reference side by side, each
//! on memory of its own, so that no store is copied. The blocks of a file are all alike: its tree costs two hashes for each layer.

use boundary::Hash as Root;
use host_tests::random::Random;
use host_tests::states::{from_history, to_history};
use reference::history::{History, NODES};
use reference::limits::{BLOCK, LONGEST_FILE, LONGEST_RUN, TALLEST_TREE};
use reference::messages::{self, Header, HASHES, REJECT, REQUEST};
use reference::number::{DONE, FACTS_OUT_OF_RANGE, RULE_BROKEN, UNUSABLE};
use reference::running::Hashing;
use reference::sha256::{pair, sha256, Hash};
use reference::store::{self, size_of};
use reference::tree::{padding, Facts, Position};
use reference::{pieces, Answer};

/// Every block of every file.
const BYTES: [u8; BLOCK as usize] = [7; BLOCK as usize];

/// A file of such blocks, and for each layer the node above blocks alone and the one above the last blocks and padding.
struct Alike {
    facts: Facts,
    whole: Vec<Hash>,
    edge: Vec<Hash>,
}

impl Alike {
    fn new(blocks: u64, piece_length: u64) -> Alike {
        let facts = Facts { length: blocks * BLOCK, piece_length, root: [0; 32] };
        let mut file = Alike { facts, whole: vec![sha256(&BYTES)], edge: vec![[0; 32]] };
        for layer in 0..facts.height() {
            let first = blocks >> (layer + 1) << 1;
            let child = |index| file.at(Position { layer, index });
            let (whole, edge) = (&file.whole[layer as usize], pair(&child(first), &child(first + 1)));
            file.whole.push(pair(whole, whole));
            file.edge.push(edge);
        }
        file.facts.root = file.at(facts.top());
        file
    }

    fn at(&self, at: Position) -> Hash {
        let whole = self.facts.blocks() >> at.layer;
        let has_edge = whole << at.layer < self.facts.blocks();
        match at.index {
            index if index < whole => self.whole[at.layer as usize],
            index if index == whole && has_edge => self.edge[at.layer as usize],
            _ => padding(at.layer),
        }
    }

    fn header(&self, [base, index, length, proof]: [u64; 4]) -> Header {
        let root = self.facts.root;
        Header { root, base: base as u32, index: index as u32, length: length as u32, proof: proof as u32 }
    }

    fn message(&self, header: &Header) -> Vec<u8> {
        let given = header.given_positions().into_iter().flat_map(|at| self.at(at));
        header.write(HASHES).into_iter().chain(given).collect()
    }
}

fn same(library: boundary::Answer, reference: Answer) -> Answer {
    assert_eq!((library.number, library.count), (reference.number, reference.count));
    reference
}

/// A file, and two stores for it that are compared after every call that may write.
struct Both {
    file: Alike,
    library: Vec<u8>,
    reference: Vec<u8>,
}

impl Both {
    fn open(file: Alike) -> Both {
        let bytes = vec![0xaa; size_of(&file.facts) as usize + 1];
        let mut both = Both { file, library: bytes.clone(), reference: bytes };
        let Facts { length, piece_length, root } = both.file.facts;
        let opened = boundary::open(&mut both.library, length, piece_length, Root { bytes: root });
        same(opened, store::open(&mut both.reference, length, piece_length, root));
        both.compare();
        both
    }

    fn compare(&self) {
        assert!(self.library == self.reference, "the stores differ");
    }

    fn take(&mut self, header: &Header) -> Answer {
        let message = self.file.message(header);
        let answer = same(boundary::take(&mut self.library, &message), messages::take(&mut self.reference, &message));
        self.compare();
        answer
    }

    fn reject(&self, header: &Header) -> Answer {
        let reject = header.write(REJECT);
        same(boundary::take_reject(&self.library, &reject), messages::take_reject(&self.reference, &reject))
    }

    fn serve(&self, header: &Header) -> Answer {
        let request = header.write(REQUEST);
        let mut outs = [vec![0xaa; header.message_size() as usize + 1], vec![0xaa; header.message_size() as usize + 1]];
        let [ours, expected] = &mut outs;
        let answer =
            same(boundary::serve(&self.library, &request, ours), messages::serve(&self.reference, &request, expected));
        assert!(outs[0] == outs[1], "the replies differ");
        answer
    }

    /// Taken, asked for and rejected: the number is 3 in each form or in none.
    fn in_every_form(&mut self, words: [u64; 4]) -> Answer {
        let header = self.file.header(words);
        let taken = self.take(&header);
        let numbers = [self.reject(&header).number, self.serve(&header).number];
        assert!(numbers.iter().all(|number| (*number == RULE_BROKEN) == (taken.number == RULE_BROKEN)), "{words:?}");
        taken
    }

    fn held(&self, layer: u64, index: u64) -> u32 {
        let (library, reference) =
            (boundary::held(&self.library, layer, index), store::held(&self.reference, layer, index));
        assert_eq!((library.number, library.hash.bytes), (reference.number, reference.hash));
        reference.number
    }
}

/// The runs of a length whose true message is taken at once: its anchor is the root, at the top or over all proof layers.
fn runs_below_the_root(height: u64, length: u64) -> [[u64; 4]; 3] {
    let layers = length.ilog2() as u64;
    let (top, proof) = (height.saturating_sub(layers), height.saturating_sub(1));
    let last = (1 << height) - length.min(1 << height);
    [[top, 0, length, 0], [0, last, length, proof], [0, last / 2 / length * length, length, proof]]
}

/// 512, 1024 and 8192 are refused by 3 where the tree is lower than the run, and nowhere else; 16384 everywhere.
fn every_length(height: u64, blocks: u64) {
    let mut both = Both::open(Alike::new(blocks, BLOCK));
    assert_eq!(both.file.facts.height(), height);
    for length in [512, 1024, LONGEST_RUN as u64, 2 * LONGEST_RUN as u64] {
        let number = if 1 << height < length || length > LONGEST_RUN as u64 { RULE_BROKEN } else { DONE };
        for words in runs_below_the_root(height, length) {
            assert_eq!(both.in_every_form(words).number, number, "{words:?} at height {height}");
        }
    }
}

fn every_length_in_every_full_tree() {
    (0..=TALLEST_TREE).for_each(|height| every_length(height, 1 << height));
}

/// Half of such a tree and more is padding.
fn every_length_in_every_tree_of_one_block_more() {
    (1..=TALLEST_TREE).for_each(|height| every_length(height, (1 << (height - 1)) + 1));
}

fn lengths_about_the_limits() {
    for (length, height) in [(1 << 30, 16), ((1 << 30) + 1, 17), (LONGEST_FILE, TALLEST_TREE)] {
        let facts = Facts { length, piece_length: 1 << 24, root: [7; 32] };
        let size = same(boundary::store_size(length, 1 << 24), store::store_size(length, 1 << 24));
        assert_eq!((size.number, facts.height()), (DONE, height));
        let mut bytes = vec![0; size.count as usize];
        let short = bytes.len() - 1;
        assert_eq!(boundary::open(&mut bytes[..short], length, 1 << 24, Root { bytes: [7; 32] }).number, UNUSABLE);
        assert_eq!(boundary::open(&mut bytes, length, 1 << 24, Root { bytes: [7; 32] }).number, DONE);
        assert_eq!(boundary::held(&bytes, height, 0).number, DONE);
        assert_eq!(boundary::held(&bytes, height + 1, 0).number, RULE_BROKEN);
    }
    for length in [LONGEST_FILE + 1, LONGEST_FILE + (1 << 32)] {
        same(boundary::store_size(length, BLOCK), store::store_size(length, BLOCK));
        let mut bytes = vec![0; 1000];
        assert_eq!(boundary::open(&mut bytes, length, BLOCK, Root { bytes: [7; 32] }).number, FACTS_OUT_OF_RANGE);
        bytes[..8].copy_from_slice(&length.to_be_bytes());
        bytes[10] = 0x40;
        assert_eq!(boundary::held(&bytes, 0, 0).number, UNUSABLE);
    }
}

/// The longest file in the smallest pieces: a layer of 2^20 hashes, 32 MiB, loaded; then all is held to the last block.
fn the_longest_layer() {
    let mut both = Both::open(Alike::new(LONGEST_FILE / BLOCK, BLOCK));
    let facts = both.file.facts;
    let layer = both.file.whole[0].repeat(facts.pieces() as usize);
    let loaded = same(boundary::load_layer(&mut both.library, &layer), pieces::load_layer(&mut both.reference, &layer));
    assert_eq!(loaded, Answer::done((2 << TALLEST_TREE) - 2));
    both.compare();
    let last = facts.blocks() - 1;
    assert_eq!(both.held(0, last), DONE);
    assert_eq!(both.held(0, last + 1), RULE_BROKEN);
    let block = boundary::judge_block(&mut both.library, last, &BYTES);
    assert_eq!(same(block, pieces::judge_block(&mut both.reference, last, &BYTES)), Answer::done(0));
    let piece = boundary::judge_piece(&mut both.library, last, &BYTES);
    assert_eq!(same(piece, pieces::judge_piece(&mut both.reference, last, &BYTES)), Answer::done(0));
    both.compare();
    assert_eq!(boundary::judge_block(&mut both.library, last + 1, &BYTES).number, RULE_BROKEN);
    let run = both.file.header([0, facts.blocks() - LONGEST_RUN as u64, LONGEST_RUN as u64, TALLEST_TREE - 1]);
    assert_eq!(both.serve(&run), Answer::done(run.message_size()));
    assert_eq!(both.take(&run), Answer::done(0));
}

/// The last blocks of the longest history: its hashes are the last of 2^20, and its root stands in the last of the nodes.
fn the_end_of_the_longest_history() {
    let mut random = Random::new(20);
    let nodes: [Hash; NODES] = std::array::from_fn(|_| random.hash());
    let before = History { piece_length: BLOCK, length: LONGEST_FILE - 2 * BLOCK, block: Hashing::begin(), nodes };
    let layer = vec![0x5a; 32 * (LONGEST_FILE / BLOCK) as usize];
    let (mut ours, mut expected) = (layer.clone(), layer);
    let burst = BYTES.repeat(2);
    let given = boundary::history_more(from_history(before), &burst, &mut ours);
    let (number, full) = before.more(&burst, &mut expected);
    assert_eq!((given.number, to_history(given.state)), (number, full));
    assert_eq!((number, full.length), (DONE, LONGEST_FILE));
    assert_eq!(boundary::history_more(given.state, &[1], &mut ours).number, FACTS_OUT_OF_RANGE);
    let (end, expected_end) = (boundary::history_end(given.state, &mut ours), full.end(&mut expected));
    assert_eq!((end.number, end.length, end.layer_size), (DONE, LONGEST_FILE, expected.len() as u64));
    assert_eq!((end.root.bytes, expected_end.root), (expected_end.root, full.nodes[TALLEST_TREE as usize]));
    assert!(ours == expected, "the layers differ");
    assert_eq!(boundary::history_end(given.state, &mut ours[1..]).number, reference::number::NO_ROOM);
}

host_tests::tests! {
    every_length_in_every_full_tree,
    every_length_in_every_tree_of_one_block_more,
    lengths_about_the_limits,
    the_longest_layer,
    the_end_of_the_longest_history,
}
