//! The header's declarations, word for word.

use core::mem::{offset_of, size_of};

#[repr(C)]
#[derive(Clone, Copy, Debug, PartialEq, Eq)]
pub struct Hash {
    pub bytes: [u8; 32],
}

#[repr(C)]
#[derive(Clone, Copy, Debug, PartialEq, Eq)]
pub struct Answer {
    pub number: u32,
    pub count: u64,
}

#[repr(C)]
#[derive(Clone, Copy, Debug, PartialEq, Eq)]
pub struct Hashed {
    pub number: u32,
    pub hash: Hash,
}

#[repr(C)]
#[derive(Clone, Copy, Debug, PartialEq, Eq)]
pub struct Sha1Hash {
    pub bytes: [u8; 20],
}

#[repr(C)]
#[derive(Clone, Copy, Debug, PartialEq, Eq)]
pub struct Sha1Answer {
    pub number: u32,
    pub hash: Sha1Hash,
}

#[repr(C)]
#[derive(Clone, Copy, Debug, PartialEq, Eq)]
pub struct Torrent {
    pub number: u32,
    pub info_hash: Hash,
    pub piece_length: u64,
    pub files: u64,
}

#[repr(C)]
#[derive(Clone, Copy, Debug, PartialEq, Eq)]
pub struct File {
    pub number: u32,
    pub length: u64,
    pub root: Hash,
    pub elements: u64,
    pub layer_start: u64,
    pub layer_size: u64,
}

#[repr(C)]
#[derive(Clone, Copy, Debug, PartialEq, Eq)]
pub struct Part {
    pub number: u32,
    pub start: u64,
    pub size: u64,
}

#[repr(C)]
#[derive(Clone, Copy, Debug, PartialEq, Eq)]
pub struct Hybrid {
    pub number: u32,
    pub hybrid: u32,
    pub info_hash: Sha1Hash,
}

#[repr(C)]
#[derive(Clone, Copy, Debug, PartialEq, Eq)]
pub struct V1Piece {
    pub number: u32,
    pub hash: Sha1Hash,
    pub zeros: u64,
}

#[repr(C)]
#[derive(Clone, Copy, Debug, PartialEq, Eq)]
pub struct V1Part {
    pub number: u32,
    pub start: u64,
    pub size: u64,
    pub zeros: u64,
}

#[repr(C)]
#[derive(Clone, Copy, Debug, PartialEq, Eq)]
pub struct Hashing {
    pub words: [u32; 8],
    pub tail: [u8; 64],
    pub tail_size: u64,
    pub total: u64,
}

#[repr(C)]
#[derive(Clone, Copy, Debug, PartialEq, Eq)]
pub struct HashingAnswer {
    pub number: u32,
    pub state: Hashing,
}

/// `KD_NODES`
pub const NODES: usize = 21;

#[repr(C)]
#[derive(Clone, Copy, Debug, PartialEq, Eq)]
pub struct History {
    pub piece_length: u64,
    pub length: u64,
    pub block: Hashing,
    pub nodes: [u8; 32 * NODES],
}

#[repr(C)]
#[derive(Clone, Copy, Debug, PartialEq, Eq)]
pub struct HistoryAnswer {
    pub number: u32,
    pub state: History,
}

#[repr(C)]
#[derive(Clone, Copy, Debug, PartialEq, Eq)]
pub struct HistoryEnd {
    pub number: u32,
    pub length: u64,
    pub root: Hash,
    pub layer_size: u64,
}

#[repr(C)]
#[derive(Clone, Copy, Debug, PartialEq, Eq)]
pub struct Stream {
    pub length: u32,
    pub length_size: u32,
    pub read: u32,
    pub mode: u32,
}

#[repr(C)]
#[derive(Clone, Copy, Debug, PartialEq, Eq)]
pub struct Heard {
    pub number: u32,
    pub event: u32,
    pub used: u64,
    pub size: u64,
    pub state: Stream,
}

#[repr(C)]
#[derive(Clone, Copy, Debug, PartialEq, Eq)]
pub struct Request {
    pub number: u32,
    pub asks: u32,
    pub base: u32,
    pub index: u32,
    pub length: u32,
    pub proof: u32,
    pub message: [u8; 49],
}

#[repr(C)]
#[derive(Clone, Copy, Debug, PartialEq, Eq)]
pub struct Choice {
    pub number: u32,
    pub found: u32,
    pub piece: u64,
}

#[repr(C)]
#[derive(Clone, Copy, Debug, PartialEq, Eq)]
pub struct Repaired {
    pub number: u32,
    pub dropped: u64,
    pub held: u64,
}

#[repr(C)]
#[derive(Clone, Copy, Debug, PartialEq, Eq)]
pub struct Facts {
    pub number: u32,
    pub length: u64,
    pub piece_length: u64,
    pub root: Hash,
}

#[repr(C)]
#[derive(Clone, Copy, Debug, PartialEq, Eq)]
pub struct Placed {
    pub number: u32,
    pub file: u64,
    pub piece: u64,
}

// The same sizes and offsets that the C test asserts of the header.
const _: () = {
    assert!(size_of::<Hash>() == 32);
    assert!(size_of::<Answer>() == 16 && offset_of!(Answer, count) == 8);
    assert!(size_of::<Hashed>() == 36 && offset_of!(Hashed, hash) == 4);
    assert!(size_of::<Sha1Hash>() == 20);
    assert!(size_of::<Sha1Answer>() == 24 && offset_of!(Sha1Answer, hash) == 4);
    assert!(size_of::<Torrent>() == 56 && offset_of!(Torrent, info_hash) == 4);
    assert!(offset_of!(Torrent, piece_length) == 40 && offset_of!(Torrent, files) == 48);
    assert!(size_of::<File>() == 72 && offset_of!(File, length) == 8 && offset_of!(File, root) == 16);
    assert!(offset_of!(File, elements) == 48 && offset_of!(File, layer_start) == 56);
    assert!(offset_of!(File, layer_size) == 64);
    assert!(size_of::<Hybrid>() == 28 && offset_of!(Hybrid, hybrid) == 4 && offset_of!(Hybrid, info_hash) == 8);
    assert!(size_of::<V1Piece>() == 32 && offset_of!(V1Piece, hash) == 4 && offset_of!(V1Piece, zeros) == 24);
    assert!(size_of::<V1Part>() == 32 && offset_of!(V1Part, start) == 8);
    assert!(offset_of!(V1Part, size) == 16 && offset_of!(V1Part, zeros) == 24);
    assert!(size_of::<Hashing>() == 112 && offset_of!(Hashing, tail) == 32);
    assert!(offset_of!(Hashing, tail_size) == 96 && offset_of!(Hashing, total) == 104);
    assert!(size_of::<HashingAnswer>() == 120 && offset_of!(HashingAnswer, state) == 8);
    assert!(size_of::<History>() == 128 + 32 * NODES && offset_of!(History, length) == 8);
    assert!(offset_of!(History, block) == 16 && offset_of!(History, nodes) == 128);
    assert!(size_of::<HistoryAnswer>() == 136 + 32 * NODES && offset_of!(HistoryAnswer, state) == 8);
    assert!(size_of::<HistoryEnd>() == 56 && offset_of!(HistoryEnd, length) == 8);
    assert!(offset_of!(HistoryEnd, root) == 16 && offset_of!(HistoryEnd, layer_size) == 48);
    assert!(size_of::<Stream>() == 16 && offset_of!(Stream, length_size) == 4);
    assert!(offset_of!(Stream, read) == 8 && offset_of!(Stream, mode) == 12);
    assert!(size_of::<Heard>() == 40 && offset_of!(Heard, event) == 4 && offset_of!(Heard, used) == 8);
    assert!(offset_of!(Heard, size) == 16 && offset_of!(Heard, state) == 24);
    assert!(size_of::<Request>() == 76 && offset_of!(Request, asks) == 4 && offset_of!(Request, base) == 8);
    assert!(offset_of!(Request, index) == 12 && offset_of!(Request, length) == 16);
    assert!(offset_of!(Request, proof) == 20 && offset_of!(Request, message) == 24);
    assert!(size_of::<Choice>() == 16 && offset_of!(Choice, found) == 4 && offset_of!(Choice, piece) == 8);
    assert!(size_of::<Repaired>() == 24 && offset_of!(Repaired, dropped) == 8 && offset_of!(Repaired, held) == 16);
    assert!(size_of::<Facts>() == 56 && offset_of!(Facts, length) == 8 && offset_of!(Facts, piece_length) == 16);
    assert!(offset_of!(Facts, root) == 24);
    assert!(size_of::<Placed>() == 24 && offset_of!(Placed, file) == 8 && offset_of!(Placed, piece) == 16);
    assert!(size_of::<Part>() == 24 && offset_of!(Part, start) == 8 && offset_of!(Part, size) == 16);
};

extern "C" {
    pub fn kd_version() -> u32;
    pub fn kd_sha256(data: *const u8, size: usize) -> Hashed;
    pub fn kd_sha1(data: *const u8, size: usize) -> Sha1Answer;
    pub fn kd_hashing_begin() -> Hashing;
    pub fn kd_hashing_more(state: Hashing, data: *const u8, size: usize) -> HashingAnswer;
    pub fn kd_hashing_end(state: Hashing) -> Hashed;
    pub fn kd_history_begin(piece_length: u64) -> HistoryAnswer;
    pub fn kd_history_more(
        state: History,
        data: *const u8,
        size: usize,
        layer: *mut u8,
        layer_size: usize,
    ) -> HistoryAnswer;
    pub fn kd_history_end(state: History, layer: *mut u8, layer_size: usize) -> HistoryEnd;
    pub fn kd_store_size(length: u64, piece_length: u64) -> Answer;
    pub fn kd_open(store: *mut u8, size: usize, length: u64, piece_length: u64, root: Hash) -> Answer;
    pub fn kd_facts(store: *const u8, size: usize) -> Facts;
    pub fn kd_held(store: *const u8, size: usize, layer: u64, index: u64) -> Hashed;
    pub fn kd_take(store: *mut u8, size: usize, message: *const u8, message_size: usize) -> Answer;
    pub fn kd_take_reject(store: *const u8, size: usize, message: *const u8, message_size: usize) -> Answer;
    pub fn kd_serve(
        store: *const u8,
        size: usize,
        request: *const u8,
        request_size: usize,
        out: *mut u8,
        out_size: usize,
    ) -> Answer;
    pub fn kd_load_layer(store: *mut u8, size: usize, layer: *const u8, layer_size: usize) -> Answer;
    pub fn kd_judge_block(store: *mut u8, size: usize, block: u64, data: *const u8, data_size: usize) -> Answer;
    pub fn kd_judge_piece(store: *mut u8, size: usize, piece: u64, data: *const u8, data_size: usize) -> Answer;
    pub fn kd_judge_hybrid_piece(
        store: *mut u8,
        size: usize,
        piece: u64,
        data: *const u8,
        data_size: usize,
        v1: Sha1Hash,
        zeros: u64,
    ) -> Answer;
    pub fn kd_piece_hashes(
        store: *const u8,
        size: usize,
        piece: u64,
        data: *const u8,
        data_size: usize,
        out: *mut u8,
        out_size: usize,
    ) -> Answer;
    pub fn kd_marked(store: *const u8, size: usize, block: u64) -> Answer;
    pub fn kd_clear(store: *mut u8, size: usize, block: u64) -> Answer;
    pub fn kd_bitfield(store: *const u8, size: usize, out: *mut u8, out_size: usize) -> Answer;
    pub fn kd_next_request(store: *const u8, size: usize, layer: u64) -> Request;
    pub fn kd_pick_piece(store: *const u8, size: usize, counts: *const u32, count: usize) -> Choice;
    pub fn kd_save(store: *const u8, size: usize, out: *mut u8, out_size: usize) -> Answer;
    pub fn kd_load(store: *mut u8, size: usize, saved: *const u8, saved_size: usize) -> Answer;
    pub fn kd_repair(store: *mut u8, size: usize, saved: *const u8, saved_size: usize) -> Repaired;
    pub fn kd_extends(
        store: *const u8,
        size: usize,
        old_length: u64,
        old_root: Hash,
        block: *const u8,
        block_size: usize,
    ) -> Answer;
    pub fn kd_torrent_read(torrent: *const u8, size: usize) -> Torrent;
    pub fn kd_torrent_file(torrent: *const u8, size: usize, file: u64) -> File;
    pub fn kd_torrent_path(torrent: *const u8, size: usize, file: u64, element: u64) -> Part;
    pub fn kd_torrent_list(torrent: *const u8, size: usize, out: *mut u8, out_size: usize) -> Answer;
    pub fn kd_torrent_info(torrent: *const u8, size: usize) -> Part;
    pub fn kd_torrent_name(torrent: *const u8, size: usize) -> Part;
    pub fn kd_torrent_hybrid(torrent: *const u8, size: usize) -> Hybrid;
    pub fn kd_torrent_v1_piece(torrent: *const u8, size: usize, file: u64, piece: u64) -> V1Piece;
    pub fn kd_torrent_v1_pieces(torrent: *const u8, size: usize, file: u64) -> V1Part;
    pub fn kd_place(list: *const u8, list_size: usize, piece_length: u64, piece: u64) -> Placed;
    pub fn kd_first_piece(list: *const u8, list_size: usize, piece_length: u64, file: u64) -> Answer;
    pub fn kd_torrent_write(
        list: *const u8,
        list_size: usize,
        text: *const u8,
        text_size: usize,
        piece_length: u64,
        name: *const u8,
        name_size: usize,
        out: *mut u8,
        out_size: usize,
    ) -> Answer;
    pub fn kd_stream_begin() -> Stream;
    pub fn kd_stream_hear(state: Stream, data: *const u8, size: usize, room: *mut u8, room_size: usize) -> Heard;
    pub fn kd_frame(message: *const u8, size: usize, out: *mut u8, out_size: usize) -> Answer;
}
