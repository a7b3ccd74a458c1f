//! A call of an entry point as a value, so that any library can be asked it, and a difference can be made small.

use crate::states::{
    from_hashing, from_history, from_stream, hashing_bytes, hashing_of, history_bytes, history_of, stream_bytes,
    stream_of, to_hashing, to_history, to_stream,
};
use reference::asking::{self, Choice, Request};
use reference::history::{End, History};
use reference::hosts::{self, Named, Placed};
use reference::hybrid::{self, Hybrid, V1Part, V1Piece};
use reference::running::Hashing;
use reference::saved::{self, Repaired};
use reference::sha1::{sha1, Sha1};
use reference::sha256::{sha256, Hash};
use reference::stream::Stream;
use reference::torrent::{File, Part, Torrent};
use reference::{extends, marks, messages, pieces, store, stream, torrent, write, Answer, Hashed, Sha1Answer};
use std::hint::black_box;

#[derive(Clone, Copy, Debug, PartialEq, Eq, PartialOrd, Ord)]
pub enum Entry {
    Sha256,
    Sha1,
    HashingBegin,
    HashingMore,
    HashingEnd,
    HistoryBegin,
    HistoryMore,
    HistoryEnd,
    StoreSize,
    Open,
    Facts,
    Held,
    Take,
    TakeReject,
    Serve,
    LoadLayer,
    JudgeBlock,
    JudgePiece,
    JudgeHybridPiece,
    PieceHashes,
    Marked,
    Clear,
    Bitfield,
    NextRequest,
    PickPiece,
    Save,
    Load,
    Repair,
    Extends,
    TorrentRead,
    TorrentFile,
    TorrentPath,
    TorrentList,
    TorrentInfo,
    TorrentName,
    TorrentHybrid,
    TorrentV1Piece,
    TorrentV1Pieces,
    Place,
    FirstPiece,
    TorrentWrite,
    StreamBegin,
    StreamHear,
    Frame,
}

impl Entry {
    pub fn name(self) -> &'static str {
        match self {
            Entry::Sha256 => "kd_sha256",
            Entry::Sha1 => "kd_sha1",
            Entry::HashingBegin => "kd_hashing_begin",
            Entry::HashingMore => "kd_hashing_more",
            Entry::HashingEnd => "kd_hashing_end",
            Entry::HistoryBegin => "kd_history_begin",
            Entry::HistoryMore => "kd_history_more",
            Entry::HistoryEnd => "kd_history_end",
            Entry::StoreSize => "kd_store_size",
            Entry::Open => "kd_open",
            Entry::Facts => "kd_facts",
            Entry::Held => "kd_held",
            Entry::Take => "kd_take",
            Entry::TakeReject => "kd_take_reject",
            Entry::Serve => "kd_serve",
            Entry::LoadLayer => "kd_load_layer",
            Entry::JudgeBlock => "kd_judge_block",
            Entry::JudgePiece => "kd_judge_piece",
            Entry::JudgeHybridPiece => "kd_judge_hybrid_piece",
            Entry::PieceHashes => "kd_piece_hashes",
            Entry::Marked => "kd_marked",
            Entry::Clear => "kd_clear",
            Entry::Bitfield => "kd_bitfield",
            Entry::NextRequest => "kd_next_request",
            Entry::PickPiece => "kd_pick_piece",
            Entry::Save => "kd_save",
            Entry::Load => "kd_load",
            Entry::Repair => "kd_repair",
            Entry::Extends => "kd_extends",
            Entry::TorrentRead => "kd_torrent_read",
            Entry::TorrentFile => "kd_torrent_file",
            Entry::TorrentPath => "kd_torrent_path",
            Entry::TorrentList => "kd_torrent_list",
            Entry::TorrentInfo => "kd_torrent_info",
            Entry::TorrentName => "kd_torrent_name",
            Entry::TorrentHybrid => "kd_torrent_hybrid",
            Entry::TorrentV1Piece => "kd_torrent_v1_piece",
            Entry::TorrentV1Pieces => "kd_torrent_v1_pieces",
            Entry::Place => "kd_place",
            Entry::FirstPiece => "kd_first_piece",
            Entry::TorrentWrite => "kd_torrent_write",
            Entry::StreamBegin => "kd_stream_begin",
            Entry::StreamHear => "kd_stream_hear",
            Entry::Frame => "kd_frame",
        }
    }
}

/// An entry point with all it is given. What it doesn't take is empty.
#[derive(Clone, Debug, PartialEq, Eq)]
pub struct Call {
    pub entry: Entry,
    /// The store, or the bytes of a state: any bytes are one. Or the list of files that a torrent is written of.
    pub store: Vec<u8>,
    /// The message, layer, block, piece, torrent, its list, string, burst, save or bytes of a stream; or the text that such a list points into; or
    /// counts of pieces, four bytes each.
    pub input: Vec<u8>,
    /// The output, the layer lent to a history, or the room lent to a stream.
    pub out: Vec<u8>,
    /// The numbers among the arguments, in their order.
    pub numbers: [u64; 2],
    /// The root; or a v1 hash, in its first bytes.
    pub root: Hash,
    /// The name of a torrent that is written.
    pub name: Vec<u8>,
}

impl Call {
    pub fn new(entry: Entry) -> Call {
        let [store, input, out, name] = [const { Vec::new() }; 4];
        Call { entry, store, input, out, numbers: [0, 0], root: [0; 32], name }
    }

    pub fn on(self, store: &[u8]) -> Call {
        Call { store: store.to_vec(), ..self }
    }

    pub fn input(self, input: Vec<u8>) -> Call {
        Call { input, ..self }
    }

    pub fn out(self, out: Vec<u8>) -> Call {
        Call { out, ..self }
    }

    pub fn named(self, name: &[u8]) -> Call {
        Call { name: name.to_vec(), ..self }
    }

    pub fn numbers(self, first: u64, second: u64) -> Call {
        Call { numbers: [first, second], ..self }
    }

    pub fn v1(self, hash: Sha1) -> Call {
        let mut root = [0; 32];
        root[..20].copy_from_slice(&hash);
        Call { root, ..self }
    }
}

#[derive(Clone, Copy, Debug, PartialEq, Eq)]
pub enum Given {
    Answer(Answer),
    Hashed(Hashed),
    Torrent(Torrent),
    File(File),
    Part(Part),
    End(End),
    Request(Request),
    Choice(Choice),
    Repaired(Repaired),
    Named(Named),
    Placed(Placed),
    Sha1(Sha1Answer),
    Hybrid(Hybrid),
    V1Piece(V1Piece),
    V1Part(V1Part),
    /// Beside a state, which is left in the call's store.
    State(u32),
    /// Number, event, used bytes and size of a call on a stream, whose state is left so too.
    Heard(u32, u32, u64, u64),
}

impl Given {
    pub fn number(&self) -> u32 {
        match self {
            Given::Answer(answer) => answer.number,
            Given::Hashed(hashed) => hashed.number,
            Given::Torrent(torrent) => torrent.number,
            Given::File(file) => file.number,
            Given::Part(part) => part.number,
            Given::End(end) => end.number,
            Given::Request(request) => request.number,
            Given::Choice(choice) => choice.number,
            Given::Repaired(repaired) => repaired.number,
            Given::Named(named) => named.number,
            Given::Placed(placed) => placed.number,
            Given::Sha1(answer) => answer.number,
            Given::Hybrid(hybrid) => hybrid.number,
            Given::V1Piece(piece) => piece.number,
            Given::V1Part(part) => part.number,
            Given::State(number) | Given::Heard(number, ..) => *number,
        }
    }

    pub fn count(&self) -> u64 {
        match self {
            Given::Answer(answer) => answer.count,
            _ => 0,
        }
    }
}

/// What a call answers, and what it leaves in every memory it was lent.
#[derive(Clone, Debug, PartialEq, Eq)]
pub struct Outcome {
    pub given: Given,
    pub store: Vec<u8>,
    pub input: Vec<u8>,
    pub out: Vec<u8>,
    pub name: Vec<u8>,
}

/// The v1 hash that a call is given.
fn v1_of(root: &Hash) -> Sha1 {
    std::array::from_fn(|at| root[at])
}

pub fn by_reference(call: &Call) -> Outcome {
    let Call { mut store, input, mut out, numbers: [first, second], root, entry, name } = call.clone();
    let given = match entry {
        Entry::Sha256 => Given::Hashed(Hashed::done(sha256(&input))),
        Entry::Sha1 => Given::Sha1(Sha1Answer { number: 0, hash: sha1(&input) }),
        Entry::HashingBegin => left(&mut store, 0, hashing_bytes(&Hashing::begin())),
        Entry::HashingMore => {
            let (number, after) = hashing_of(&store).more(&input);
            left(&mut store, number, hashing_bytes(&after))
        }
        Entry::HashingEnd => Given::Hashed(hashing_of(&store).end()),
        Entry::HistoryBegin => {
            let (number, after) = History::begin(first);
            left(&mut store, number, history_bytes(&after))
        }
        Entry::HistoryMore => {
            let (number, after) = history_of(&store).more(&input, &mut out);
            left(&mut store, number, history_bytes(&after))
        }
        Entry::HistoryEnd => Given::End(history_of(&store).end(&mut out)),
        Entry::StoreSize => Given::Answer(store::store_size(first, second)),
        Entry::Open => Given::Answer(store::open(&mut store, first, second, root)),
        Entry::Facts => Given::Named(hosts::facts(&store)),
        Entry::Held => Given::Hashed(store::held(&store, first, second)),
        Entry::Take => Given::Answer(messages::take(&mut store, &input)),
        Entry::TakeReject => Given::Answer(messages::take_reject(&store, &input)),
        Entry::Serve => Given::Answer(messages::serve(&store, &input, &mut out)),
        Entry::LoadLayer => Given::Answer(pieces::load_layer(&mut store, &input)),
        Entry::JudgeBlock => Given::Answer(pieces::judge_block(&mut store, first, &input)),
        Entry::JudgePiece => Given::Answer(pieces::judge_piece(&mut store, first, &input)),
        Entry::JudgeHybridPiece => {
            Given::Answer(hybrid::judge_hybrid_piece(&mut store, first, &input, v1_of(&root), second))
        }
        Entry::PieceHashes => Given::Answer(hosts::piece_hashes(&store, first, &input, &mut out)),
        Entry::Marked => Given::Answer(marks::marked(&store, first)),
        Entry::Clear => Given::Answer(marks::clear(&mut store, first)),
        Entry::Bitfield => Given::Answer(marks::bitfield(&store, &mut out)),
        Entry::NextRequest => Given::Request(asking::next_request(&store, first)),
        Entry::PickPiece => Given::Choice(asking::pick_piece(&store, &counts_in(&input))),
        Entry::Save => Given::Answer(saved::save(&store, &mut out)),
        Entry::Load => Given::Answer(saved::load(&mut store, &input)),
        Entry::Repair => Given::Repaired(saved::repair(&mut store, &input)),
        Entry::Extends => Given::Answer(extends::extends(&store, first, root, &input)),
        Entry::TorrentRead => Given::Torrent(torrent::torrent_read(&input)),
        Entry::TorrentFile => Given::File(torrent::torrent_file(&input, first)),
        Entry::TorrentPath => Given::Part(torrent::torrent_path(&input, first, second)),
        Entry::TorrentList => Given::Answer(torrent::torrent_list(&input, &mut out)),
        Entry::TorrentInfo => Given::Part(hosts::torrent_info(&input)),
        Entry::TorrentName => Given::Part(hosts::torrent_name(&input)),
        Entry::TorrentHybrid => Given::Hybrid(hybrid::torrent_hybrid(&input)),
        Entry::TorrentV1Piece => Given::V1Piece(hybrid::torrent_v1_piece(&input, first, second)),
        Entry::TorrentV1Pieces => Given::V1Part(hybrid::torrent_v1_pieces(&input, first)),
        Entry::Place => Given::Placed(hosts::place(&input, first, second)),
        Entry::FirstPiece => Given::Answer(hosts::first_piece(&input, first, second)),
        Entry::TorrentWrite => Given::Answer(write::torrent_write(&store, &input, first, &name, &mut out)),
        Entry::StreamBegin => left(&mut store, 0, stream_bytes(&Stream::default())),
        Entry::StreamHear => {
            let given = stream::hear(stream_of(&store), &input, &mut out);
            left(&mut store, given.number, stream_bytes(&given.state));
            Given::Heard(given.number, given.event, given.used, given.size)
        }
        Entry::Frame => Given::Answer(stream::frame(&input, &mut out)),
    };
    Outcome { given, store, input, out, name }
}

/// Counts of pieces as bytes.
pub fn bytes_of(counts: &[u32]) -> Vec<u8> {
    counts.iter().flat_map(|count| count.to_le_bytes()).collect()
}

fn counts_in(bytes: &[u8]) -> Vec<u32> {
    bytes.chunks_exact(4).map(|count| u32::from_le_bytes(count.try_into().unwrap())).collect()
}

/// A state comes back beside the number.
fn left(store: &mut [u8], number: u32, state: Vec<u8>) -> Given {
    store.copy_from_slice(&state);
    Given::State(number)
}

/// A memory between two fences, to see a byte written outside; the first one also puts it at an odd address.
pub struct Fenced {
    bytes: Vec<u8>,
    size: usize,
}

const BEFORE: [u8; 13] = [0xfd; 13];
const BEHIND: [u8; 64] = [0xfe; 64];

impl Fenced {
    pub fn new(bytes: &[u8]) -> Fenced {
        Fenced { bytes: [&BEFORE, bytes, &BEHIND].concat(), size: bytes.len() }
    }

    pub fn lent(&mut self) -> &mut [u8] {
        black_box(&mut self.bytes[BEFORE.len()..][..self.size])
    }

    /// These bytes are in it, and nothing was written outside.
    pub fn has(&self, inside: &[u8]) -> bool {
        let (before, rest) = black_box(&self.bytes).split_at(BEFORE.len());
        let (bytes, behind) = rest.split_at(self.size);
        before == BEFORE && bytes == inside && behind == BEHIND
    }

    fn taken_back(self) -> Vec<u8> {
        let (before, rest) = black_box(&self.bytes).split_at(BEFORE.len());
        let (bytes, behind) = rest.split_at(self.size);
        assert!(before == BEFORE && behind == BEHIND, "bytes were written outside a memory");
        bytes.to_vec()
    }
}

/// The proved library, over the C boundary.
pub fn by_library(call: &Call) -> Outcome {
    let [first, second] = call.numbers;
    let (mut store, mut input, mut out) = (Fenced::new(&call.store), Fenced::new(&call.input), Fenced::new(&call.out));
    let mut name = Fenced::new(&call.name);
    let (held_bytes, message, room) = (store.lent(), input.lent(), out.lent());
    let given = match call.entry {
        Entry::Sha256 => hashed(boundary::sha256(message)),
        Entry::Sha1 => sha1_of(boundary::sha1(message)),
        Entry::HashingBegin => left(held_bytes, 0, hashing_bytes(&to_hashing(boundary::hashing_begin()))),
        Entry::HashingMore => {
            let given = boundary::hashing_more(from_hashing(hashing_of(held_bytes)), message);
            left(held_bytes, given.number, hashing_bytes(&to_hashing(given.state)))
        }
        Entry::HashingEnd => hashed(boundary::hashing_end(from_hashing(hashing_of(held_bytes)))),
        Entry::HistoryBegin => {
            let given = boundary::history_begin(first);
            left(held_bytes, given.number, history_bytes(&to_history(given.state)))
        }
        Entry::HistoryMore => {
            let given = boundary::history_more(from_history(history_of(held_bytes)), message, room);
            left(held_bytes, given.number, history_bytes(&to_history(given.state)))
        }
        Entry::HistoryEnd => end_of(boundary::history_end(from_history(history_of(held_bytes)), room)),
        Entry::StoreSize => answer(boundary::store_size(first, second)),
        Entry::Open => answer(boundary::open(held_bytes, first, second, boundary::Hash { bytes: call.root })),
        Entry::Facts => named_of(boundary::facts(held_bytes)),
        Entry::Held => hashed(boundary::held(held_bytes, first, second)),
        Entry::Take => answer(boundary::take(held_bytes, message)),
        Entry::TakeReject => answer(boundary::take_reject(held_bytes, message)),
        Entry::Serve => answer(boundary::serve(held_bytes, message, room)),
        Entry::LoadLayer => answer(boundary::load_layer(held_bytes, message)),
        Entry::JudgeBlock => answer(boundary::judge_block(held_bytes, first, message)),
        Entry::JudgePiece => answer(boundary::judge_piece(held_bytes, first, message)),
        Entry::JudgeHybridPiece => {
            let v1 = boundary::Sha1Hash { bytes: v1_of(&call.root) };
            answer(boundary::judge_hybrid_piece(held_bytes, first, message, v1, second))
        }
        Entry::PieceHashes => answer(boundary::piece_hashes(held_bytes, first, message, room)),
        Entry::Marked => answer(boundary::marked(held_bytes, first)),
        Entry::Clear => answer(boundary::clear(held_bytes, first)),
        Entry::Bitfield => answer(boundary::bitfield(held_bytes, room)),
        Entry::NextRequest => request_of(boundary::next_request(held_bytes, first)),
        Entry::PickPiece => {
            // Counts are words, so that they stand in a memory of their own, and are written back as bytes.
            let counts = counts_in(message);
            let given = choice_of(boundary::pick_piece(held_bytes, black_box(&counts)));
            message[..4 * counts.len()].copy_from_slice(&bytes_of(black_box(&counts)));
            given
        }
        Entry::Save => answer(boundary::save(held_bytes, room)),
        Entry::Load => answer(boundary::load(held_bytes, message)),
        Entry::Repair => repaired(boundary::repair(held_bytes, message)),
        Entry::Extends => answer(boundary::extends(held_bytes, first, boundary::Hash { bytes: call.root }, message)),
        Entry::TorrentRead => torrent_of(boundary::torrent_read(message)),
        Entry::TorrentFile => file_of(boundary::torrent_file(message, first)),
        Entry::TorrentPath => part_of(boundary::torrent_path(message, first, second)),
        Entry::TorrentList => answer(boundary::torrent_list(message, room)),
        Entry::TorrentInfo => part_of(boundary::torrent_info(message)),
        Entry::TorrentName => part_of(boundary::torrent_name(message)),
        Entry::TorrentHybrid => hybrid_of(boundary::torrent_hybrid(message)),
        Entry::TorrentV1Piece => v1_piece_of(boundary::torrent_v1_piece(message, first, second)),
        Entry::TorrentV1Pieces => v1_part_of(boundary::torrent_v1_pieces(message, first)),
        Entry::Place => placed_of(boundary::place(message, first, second)),
        Entry::FirstPiece => answer(boundary::first_piece(message, first, second)),
        Entry::TorrentWrite => answer(boundary::torrent_write(held_bytes, message, first, name.lent(), room)),
        Entry::StreamBegin => left(held_bytes, 0, stream_bytes(&to_stream(boundary::stream_begin()))),
        Entry::StreamHear => {
            let given = boundary::stream_hear(from_stream(stream_of(held_bytes)), message, room);
            left(held_bytes, given.number, stream_bytes(&to_stream(given.state)));
            Given::Heard(given.number, given.event, given.used, given.size)
        }
        Entry::Frame => answer(boundary::frame(message, room)),
    };
    let (store, input, out, name) = (store.taken_back(), input.taken_back(), out.taken_back(), name.taken_back());
    Outcome { given, store, input, out, name }
}

fn answer(given: boundary::Answer) -> Given {
    Given::Answer(Answer { number: given.number, count: given.count })
}

fn hashed(given: boundary::Hashed) -> Given {
    Given::Hashed(Hashed { number: given.number, hash: given.hash.bytes })
}

fn sha1_of(given: boundary::Sha1Answer) -> Given {
    Given::Sha1(Sha1Answer { number: given.number, hash: given.hash.bytes })
}

fn hybrid_of(given: boundary::Hybrid) -> Given {
    Given::Hybrid(Hybrid { number: given.number, hybrid: given.hybrid, info_hash: given.info_hash.bytes })
}

fn v1_piece_of(given: boundary::V1Piece) -> Given {
    Given::V1Piece(V1Piece { number: given.number, hash: given.hash.bytes, zeros: given.zeros })
}

fn v1_part_of(given: boundary::V1Part) -> Given {
    Given::V1Part(V1Part { number: given.number, start: given.start, size: given.size, zeros: given.zeros })
}

fn repaired(given: boundary::Repaired) -> Given {
    Given::Repaired(Repaired { number: given.number, dropped: given.dropped, held: given.held })
}

fn torrent_of(given: boundary::Torrent) -> Given {
    Given::Torrent(Torrent {
        number: given.number,
        info_hash: given.info_hash.bytes,
        piece_length: given.piece_length,
        files: given.files,
    })
}

fn file_of(given: boundary::File) -> Given {
    Given::File(File {
        number: given.number,
        length: given.length,
        root: given.root.bytes,
        elements: given.elements,
        layer_start: given.layer_start,
        layer_size: given.layer_size,
    })
}

fn part_of(given: boundary::Part) -> Given {
    Given::Part(Part { number: given.number, start: given.start, size: given.size })
}

fn named_of(given: boundary::Facts) -> Given {
    let boundary::Facts { number, length, piece_length, root } = given;
    Given::Named(Named { number, length, piece_length, root: root.bytes })
}

fn placed_of(given: boundary::Placed) -> Given {
    Given::Placed(Placed { number: given.number, file: given.file, piece: given.piece })
}

fn request_of(given: boundary::Request) -> Given {
    let boundary::Request { number, asks, base, index, length, proof, message } = given;
    Given::Request(Request { number, asks, base, index, length, proof, message })
}

fn choice_of(given: boundary::Choice) -> Given {
    Given::Choice(Choice { number: given.number, found: given.found, piece: given.piece })
}

fn end_of(given: boundary::HistoryEnd) -> Given {
    Given::End(End { number: given.number, length: given.length, root: given.root.bytes, layer_size: given.layer_size })
}
