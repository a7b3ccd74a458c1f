//! Sequences of calls on one store: true replies and requests, damaged ones, hostile ones, on stores of our own, on
//! stores that another hand has changed, and on foreign bytes.

use crate::call::{bytes_of, Call, Entry, Outcome};
use crate::compare::Comparison;
use crate::random::Random;
use crate::truth::{self, Pair, Truth};
use reference::limits::{BLOCK, LONGEST_FILE};
use reference::messages::{Header, HASHES, HEAD, REJECT, REQUEST};
use reference::sha1::{sha1, Sha1};
use reference::sha256::{sha256, Hash};
use reference::store::{facts_of, size_of, CELL, HEAD as FACTS, HELD};
use reference::tree::{over_run, padding, Position};
use std::ops::Range;

const HOSTILE_WORDS: [u32; 22] =
    [0, 1, 2, 3, 4, 5, 6, 8, 9, 15, 16, 31, 32, 33, 64, 512, 1024, 8192, 16384, 1 << 31, u32::MAX - 1, u32::MAX];
const HOSTILE_NUMBERS: [u64; 12] = [0, 1, 2, 5, 16, 17, 32, 64, 1 << 32, 1 << 50, u64::MAX / 16384, u64::MAX];
const HOSTILE_LENGTHS: [u64; 11] =
    [0, 1, 16384, 1 << 20, 1 << 30, (1 << 30) + 1, LONGEST_FILE, LONGEST_FILE + 1, 1 << 63, u64::MAX - 1, u64::MAX];
const HOSTILE_PIECE_LENGTHS: [u64; 12] =
    [0, 1, 8192, 16383, 16384, 16385, 49152, 1 << 24, (1 << 24) + 1, 1 << 25, (1 << 32) + 16384, u64::MAX];

/// Who else writes to the store.
#[derive(Clone, Copy, PartialEq, Eq)]
pub enum Hands {
    /// Only our calls, from an opening that was answered 0.
    OursAlone,
    Others,
}

/// One sequence of calls about one file.
pub struct Session<'a> {
    pub truth: &'a Truth,
    forged: &'a Truth,
    pub store: Vec<u8>,
    hands: Hands,
    last_reply: Vec<u8>,
}

impl<'a> Session<'a> {
    /// A session whose store is opened, foreign or hostile.
    pub fn begin(files: &'a Pair, hands: Hands, random: &mut Random, compared: &mut Comparison) -> Session<'a> {
        let Pair { truth, forged } = files;
        let mut session = Session { truth, forged, store: Vec::new(), hands, last_reply: Vec::new() };
        session.store = session.buffer(random);
        if hands == Hands::OursAlone || random.percent(70) {
            session.apply(&session.opening(), compared);
        } else if random.percent(70) {
            session.store = session.foreign(random);
        } else {
            session.store = hostile_store(random);
        }
        session
    }

    fn opening(&self) -> Call {
        let facts = &self.truth.facts;
        Call { root: facts.root, ..Call::new(Entry::Open) }.on(&self.store).numbers(facts.length, facts.piece_length)
    }

    /// Bytes with room for the file's store, and often some more.
    fn buffer(&self, random: &mut Random) -> Vec<u8> {
        let size = size_of(&self.truth.facts) as usize + random.pick(&[0, 0, 1, 40]);
        let filling = random.pick(&[0, 1, 0xaa, 0xff]);
        vec![filling; size]
    }

    /// A store as no call of ours leaves it: any position held or not, some with another hash or mark; any block marked or not, those past the
    /// file's too.
    fn foreign(&self, random: &mut Random) -> Vec<u8> {
        let facts = &self.truth.facts;
        let mut store = self.buffer(random);
        store[0..8].copy_from_slice(&facts.length.to_be_bytes());
        store[8..12].copy_from_slice(&(facts.piece_length as u32).to_be_bytes());
        store[12..44].copy_from_slice(&facts.root);
        let wrong = random.pick(&[0, 0, 5, 50]);
        for layer in 0..=facts.height() {
            for index in 0..facts.width(layer) {
                let hash = if random.percent(wrong) { random.hash() } else { self.truth.at(Position { layer, index }) };
                let cell = FACTS + CELL * (facts.width(layer) + index - 1) as usize;
                store[cell] = random.pick(&[HELD, HELD, HELD, 0, 2, 0xff]);
                store[cell + 1..cell + CELL].copy_from_slice(&hash);
            }
        }
        for mark in self.marks() {
            store[mark] = random.pick(&[1, 1, 1, 0, 2, 0xff]);
        }
        store
    }

    /// Where the marks of the file's blocks stand, and behind them those of no block.
    fn marks(&self) -> Range<usize> {
        let facts = &self.truth.facts;
        let end = size_of(facts) as usize;
        end - facts.width(0) as usize..end
    }

    /// Asks one call, and goes on with the store it leaves.
    pub fn apply(&mut self, call: &Call, compared: &mut Comparison) -> Outcome {
        let outcome = compared.ask(call);
        if call.entry != Entry::StoreSize {
            self.store.clone_from(&outcome.store);
        }
        if [Entry::Serve, Entry::PieceHashes].contains(&call.entry) {
            self.last_reply = outcome.out[..outcome.given.count() as usize].to_vec();
        }
        outcome
    }

    /// One step: sometimes another hand in the store, then a call.
    pub fn step(&mut self, random: &mut Random, compared: &mut Comparison) {
        if self.hands == Hands::Others && random.percent(8) && !self.store.is_empty() {
            let marks = self.marks();
            let at = if random.percent(30) && marks.end <= self.store.len() {
                marks.start + random.below(marks.len() as u64) as usize
            } else {
                random.below(self.store.len() as u64) as usize
            };
            self.store[at] = random.pick(&[0, 1, 2, 0xff, self.store[at] ^ 1]);
        }
        let call = self.call(random);
        self.apply(&call, compared);
    }

    /// A call about this session's file.
    pub fn call(&self, random: &mut Random) -> Call {
        let judges = if self.truth.bytes.is_empty() { 1 } else { 40 };
        match random.below(133 + judges) {
            0..=49 => Call::new(Entry::Take).on(&self.store).input(self.hashes(random)),
            50..=69 => self.request(random),
            70..=74 => Call::new(Entry::TakeReject).on(&self.store).input(self.reject(random)),
            75..=84 => self.held(random),
            85..=92 => Call::new(Entry::LoadLayer).on(&self.store).input(self.layer(random)),
            93..=97 => self.refused_opening(random),
            98..=99 => {
                Call::new(Entry::StoreSize).numbers(random.pick(&HOSTILE_LENGTHS), random.pick(&HOSTILE_PIECE_LENGTHS))
            }
            100..=114 => self.about_marks(random),
            115..=122 => self.next_request(random),
            123..=126 => self.pick_piece(random),
            127..=132 => self.extends(random),
            _ if random.percent(30) => self.piece_hashes(random),
            _ => self.judgement(random),
        }
    }

    /// A hashes message: mostly true, else with one thing wrong.
    fn hashes(&self, random: &mut Random) -> Vec<u8> {
        if random.percent(10) && !self.last_reply.is_empty() {
            return self.last_reply.clone();
        }
        let Some(header) = self.truth.header(random) else { return self.hostile_message(random) };
        let mut message = self.truth.message(&header);
        match random.below(20) {
            0..=9 => (),
            10 => flip(&mut message, random),
            11 => resize(&mut message, random),
            12 => message[0] = random.pick(&[0, REQUEST, REJECT, 24]),
            13 => message[1..33].copy_from_slice(&random.hash()),
            14 => return self.hostile_message(random),
            15 => {
                message = self.forged.message(&header);
                message[1..33].copy_from_slice(&self.truth.facts.root);
            }
            _ => self.another_hash(&header, &mut message, random),
        }
        message
    }

    /// Puts another hash at one of the positions a message gives, by preference a padding one.
    fn another_hash(&self, header: &Header, message: &mut [u8], random: &mut Random) {
        let given = header.given_positions();
        let paddings: Vec<usize> = (0..given.len()).filter(|at| self.truth.facts.is_padding(given[*at])).collect();
        let place = if paddings.is_empty() || random.percent(30) {
            random.below(given.len() as u64) as usize
        } else {
            random.pick(&paddings)
        };
        let other = random.pick(&given);
        let hash = match random.below(4) {
            0 => [0; 32],
            1 => random.hash(),
            2 => self.truth.at(other),
            _ => padding(other.layer + 1),
        };
        message[HEAD + 32 * place..][..32].copy_from_slice(&hash);
    }

    /// A header with hostile words, and as many bytes behind it as come to mind.
    fn hostile_message(&self, random: &mut Random) -> Vec<u8> {
        let mut message = self.hostile_header(random).write(HASHES);
        let hashes = random.pick(&[0, 1, 2, 3, 4, 8, 512]);
        message.extend(random.bytes(32 * hashes));
        message
    }

    fn hostile_header(&self, random: &mut Random) -> Header {
        let honest = self.truth.header(random).unwrap_or(Header {
            root: self.truth.facts.root,
            base: 0,
            index: 0,
            length: 2,
            proof: 0,
        });
        let mut words = [honest.base, honest.index, honest.length, honest.proof];
        for _ in 0..random.between(1, 2) {
            let which = random.below(4) as usize;
            words[which] = match random.below(3) {
                0 => words[which].wrapping_add(1),
                1 => words[which].wrapping_sub(1),
                _ => random.pick(&HOSTILE_WORDS),
            };
        }
        let [base, index, length, proof] = words;
        Header { root: honest.root, base, index, length, proof }
    }

    fn any_header(&self, random: &mut Random) -> Header {
        let mut header = self.truth.header(random).filter(|_| random.percent(80));
        let mut header = header.take().unwrap_or_else(|| self.hostile_header(random));
        if random.percent(5) {
            header.root = random.hash();
        }
        header
    }

    fn request(&self, random: &mut Random) -> Call {
        let header = self.any_header(random);
        let mut request = header.write(REQUEST);
        if random.percent(10) {
            if random.percent(50) {
                resize(&mut request, random);
            } else {
                flip(&mut request, random);
            }
        }
        // Just enough room, one byte too little, room for a reject only, or a lot.
        let fitting = if header.obeys_the_rules(&self.truth.facts) { header.message_size() } else { HEAD as u64 };
        let a_lot = if random.percent(10) { 20_000 } else { fitting + 600 };
        let room = random.pick(&[fitting, fitting, fitting, fitting - 1, fitting + 7, a_lot, a_lot, 48, 49, 0]);
        let out = vec![random.pick(&[0, 0x55]); room as usize];
        Call { out, ..Call::new(Entry::Serve).on(&self.store).input(request) }
    }

    fn reject(&self, random: &mut Random) -> Vec<u8> {
        let mut reject = self.any_header(random).write(REJECT);
        match random.below(6) {
            0 => flip(&mut reject, random),
            1 => resize(&mut reject, random),
            2 if !self.last_reply.is_empty() => reject.clone_from(&self.last_reply),
            _ => (),
        }
        reject
    }

    fn held(&self, random: &mut Random) -> Call {
        let layer = random.below(self.truth.facts.height() + 2);
        let width = 1 << self.truth.facts.height().saturating_sub(layer);
        let (layer, index) = match random.below(8) {
            0 => (random.pick(&HOSTILE_NUMBERS), 0),
            1 => (layer, random.pick(&HOSTILE_NUMBERS)),
            2 => (layer, width),
            _ => (layer, random.below(width)),
        };
        Call::new(Entry::Held).on(&self.store).numbers(layer, index)
    }

    fn layer(&self, random: &mut Random) -> Vec<u8> {
        let mut layer = if random.percent(10) { self.forged.layer() } else { self.truth.layer() };
        match random.below(10) {
            0 => resize(&mut layer, random),
            1 => flip(&mut layer, random),
            2 => layer.resize(layer.len().next_multiple_of(64), 0),
            _ => (),
        }
        layer
    }

    /// An opening that is refused, and so leaves the store as it is. Without our own hands alone, any opening.
    fn refused_opening(&self, random: &mut Random) -> Call {
        if self.hands == Hands::Others && random.percent(20) {
            return self.opening();
        }
        let mut call = self.opening();
        match random.below(3) {
            0 => call.numbers[0] = random.pick(&[0, LONGEST_FILE + 1, u64::MAX, 1 << 63]),
            1 => call.numbers[1] = random.pick(&[0, 1, 8192, 16385, 49152, 1 << 25, (1 << 32) + 16384, u64::MAX]),
            _ => call.numbers[0] = LONGEST_FILE,
        }
        call
    }

    /// A mark asked for or cleared, or the bitfield, in any room.
    fn about_marks(&self, random: &mut Random) -> Call {
        let facts = &self.truth.facts;
        let block = match random.below(8) {
            0 => facts.blocks(),
            1 => random.pick(&HOSTILE_NUMBERS),
            2..=3 => facts.blocks() - 1,
            _ => random.below(facts.blocks()),
        };
        let size = facts.pieces().div_ceil(8) as usize;
        let room = random.pick(&[0, size - 1, size, size + 1, size + 9]);
        let out = random.bytes(room);
        match random.below(4) {
            0 => Call::new(Entry::Clear).on(&self.store).numbers(block, 0),
            1 => Call::new(Entry::Marked).on(&self.store).numbers(block, 0),
            _ => Call::new(Entry::Bitfield).on(&self.store).out(out),
        }
    }

    /// The next request for layer 0, for the piece layer, or for another.
    fn next_request(&self, random: &mut Random) -> Call {
        let facts = &self.truth.facts;
        let layer = match random.below(8) {
            0 => random.below(facts.height() + 2),
            1 => random.pick(&HOSTILE_NUMBERS),
            2..=4 => facts.piece_layer(),
            _ => 0,
        };
        Call::new(Entry::NextRequest).on(&self.store).numbers(layer, 0)
    }

    /// The piece to fetch: counts with many ties and zeros, or any; sometimes one too many or too few.
    fn pick_piece(&self, random: &mut Random) -> Call {
        let pieces = self.truth.facts.pieces();
        let length = random.pick(&[pieces, pieces, pieces, pieces, pieces, pieces, pieces + 1, pieces - 1, 0]);
        let some =
            random.pick(&[[0, 1, 1, 2], [0, 0, 0, 1], [1, 2, 3, 4], [0, 1, u32::MAX, u32::MAX - 1], [0, 0, 0, 0]]);
        let counts: Vec<u32> = (0..length).map(|_| random.pick(&some)).collect();
        Call::new(Entry::PickPiece).on(&self.store).input(bytes_of(&counts))
    }

    /// Whether the file begins with an earlier one: mostly its own first bytes, else another root, length or block.
    fn extends(&self, random: &mut Random) -> Call {
        let facts = &self.truth.facts;
        let block = random.below(facts.blocks());
        let length = match random.below(12) {
            0 => random.pick(&HOSTILE_LENGTHS),
            1 => facts.length + 1,
            2..=3 => facts.length,
            4..=7 => (block * BLOCK).max(1),
            _ => block * BLOCK + random.between(1, facts.block_size(block).unwrap_or(1)),
        };
        let over = length / BLOCK;
        let size = if length % BLOCK == 0 { 0 } else { facts.block_size(over).unwrap_or(3) };
        let mut input = self.truth.part(over, BLOCK, size);
        let mut root = self.earlier_root(length);
        match random.below(10) {
            0 => root = random.hash(),
            1 => root = facts.root,
            2 => flip(&mut input, random),
            3 => resize(&mut input, random),
            _ => (),
        }
        Call { root, ..Call::new(Entry::Extends) }.on(&self.store).numbers(length, 0).input(input)
    }

    /// The root of the file's first bytes; of a file without bytes, as if they were zeros where they end inside a block.
    fn earlier_root(&self, length: u64) -> Hash {
        if length == 0 || length > self.truth.facts.length {
            return self.truth.facts.root;
        }
        let (whole, rest) = (length / BLOCK, length % BLOCK);
        let mut leaves: Vec<Hash> = (0..whole).map(|index| self.truth.at(Position { layer: 0, index })).collect();
        if rest != 0 {
            leaves.push(sha256(&self.truth.part(whole, BLOCK, rest)[..rest as usize]));
        }
        leaves.resize(leaves.len().next_power_of_two(), [0; 32]);
        over_run(Position { layer: 0, index: 0 }, &leaves).last().expect("a tree has a root").1
    }

    /// A piece's block hashes, in any room; the bytes as a judgement has them.
    fn piece_hashes(&self, random: &mut Random) -> Call {
        let facts = &self.truth.facts;
        let node = facts.piece_position(0).layer;
        let size = if node == 0 { 0 } else { HEAD + 32 * (1 << node) };
        let room = random.pick(&[size, size, size + 1, size + 40, size.saturating_sub(1), 0]);
        let out = random.bytes(room);
        let number = match random.below(12) {
            0 => facts.pieces(),
            1 => random.pick(&HOSTILE_NUMBERS),
            2..=6 => facts.pieces() - 1,
            _ => random.below(facts.pieces()),
        };
        let mut data = self.truth.part(number, facts.piece_length, facts.piece_size(number).unwrap_or(10));
        match random.below(10) {
            0 => resize(&mut data, random),
            1 => flip(&mut data, random),
            _ => (),
        }
        Call::new(Entry::PieceHashes).on(&self.store).numbers(number, 0).input(data).out(out)
    }

    fn judgement(&self, random: &mut Random) -> Call {
        let facts = &self.truth.facts;
        let is_block = random.percent(50);
        let (parts, part, entry) = if is_block {
            (facts.blocks(), BLOCK, Entry::JudgeBlock)
        } else {
            (facts.pieces(), facts.piece_length, random.pick(&[Entry::JudgePiece, Entry::JudgeHybridPiece]))
        };
        let number = match random.below(12) {
            0 => parts,
            1 => random.pick(&HOSTILE_NUMBERS),
            // The last one is often short.
            2..=6 => parts - 1,
            _ => random.below(parts),
        };
        let size = if is_block { facts.block_size(number) } else { facts.piece_size(number) };
        let mut data = self.truth.part(number, part, size.unwrap_or(10));
        let (v1, zeros) = if entry == Entry::JudgeHybridPiece { self.v1_half(&data, random) } else { ([0; 20], 0) };
        match random.below(8) {
            0 => resize(&mut data, random),
            1 => flip(&mut data, random),
            // The last block filled up with zeros, an error that looks right.
            2 => data.resize(data.len().next_multiple_of(BLOCK as usize), 0),
            _ => (),
        }
        Call::new(entry).on(&self.store).numbers(number, zeros).input(data).v1(v1)
    }

    /// The v1 hash of a piece with so many zeros behind it: up to the piece length, or fewer; or with one thing wrong.
    fn v1_half(&self, data: &[u8], random: &mut Random) -> (Sha1, u64) {
        let most = self.truth.facts.piece_length.saturating_sub(data.len() as u64);
        // A piece of 16 MiB is hashed with few zeros only.
        let most = if most > 1 << 20 { 1000 } else { most };
        let zeros = random.pick(&[0, most, most, random.clone().below(most + 1)]);
        let mut v1 = sha1(&[data, &vec![0; zeros as usize]].concat());
        match random.below(10) {
            0 => v1[random.below(20) as usize] ^= 1 << random.below(8),
            1 => return (v1, random.pick(&[zeros + 1, zeros.saturating_sub(1), self.truth.facts.piece_length])),
            2 => return (v1, random.pick(&HOSTILE_NUMBERS)),
            _ => (),
        }
        (v1, zeros)
    }
}

/// Bytes that name any facts, with any room.
fn hostile_store(random: &mut Random) -> Vec<u8> {
    let size = random.pick(&[0, 1, 11, 12, 43, 44, 63, 64, 96, 97, 98, 99, 162, 163, 164, 165, 166, 600]);
    let mut store = random.bytes(size);
    if size >= 12 && random.percent(80) {
        let length = random.pick(&HOSTILE_LENGTHS);
        let piece_length = random.pick(&HOSTILE_PIECE_LENGTHS) as u32;
        store[0..8].copy_from_slice(&length.to_be_bytes());
        store[8..12].copy_from_slice(&piece_length.to_be_bytes());
    }
    store
}

fn flip(bytes: &mut [u8], random: &mut Random) {
    if !bytes.is_empty() {
        let at = random.below(bytes.len() as u64) as usize;
        bytes[at] ^= 1 << random.below(8);
    }
}

/// A byte or a hash too many or too few, or cut anywhere.
fn resize(bytes: &mut Vec<u8>, random: &mut Random) {
    let size = bytes.len();
    let cut = random.below(size as u64 + 1) as usize;
    let other = random.pick(&[size + 1, size.saturating_sub(1), size + 32, size.saturating_sub(32), cut, 0, 48, 49]);
    bytes.resize(other, 0);
}

/// Files kept for more than one session: making a tree costs as much as many calls. Another comes for one of them now and
/// then.
const KEPT: u64 = 40;

/// Sessions on small files, as long as wanted. To judge a block or a piece costs as much as ten other calls, so that few
/// sessions are on files with bytes.
pub fn run(random: &mut Random, compared: &mut Comparison, mut go_on: impl FnMut(&Comparison) -> bool) {
    let with_bytes = truth::with_bytes(random);
    let mut small: Vec<Pair> = (0..KEPT).map(|_| Pair::new(truth::small(random), random)).collect();
    while go_on(compared) {
        let which = random.below(KEPT) as usize;
        if random.percent(10) {
            small[which] = Pair::new(truth::small(random), random);
        }
        let files = if random.percent(4) { &with_bytes[which % with_bytes.len()] } else { &small[which] };
        let mut session = Session::begin(files, Hands::Others, random, compared);
        session.apply(&Call::new(Entry::Facts).on(&session.store), compared);
        for _ in 0..random.between(1, 40) {
            session.step(random, compared);
            // An unusable store has one answer to everything.
            if facts_of(&session.store).is_none() && random.percent(40) {
                break;
            }
        }
    }
}

/// One session on a file of 65536 blocks, with a store of 4 MiB. The largest are tried in tests/tall.rs.
pub fn run_on_a_large_file(random: &mut Random, compared: &mut Comparison, steps: u64) {
    let files = Pair::new(Truth::of_leaves(65536 * BLOCK, 1 << 20, random), random);
    let mut session = Session::begin(&files, Hands::OursAlone, random, compared);
    for _ in 0..steps {
        session.step(random, compared);
    }
}
