//! The C boundary as Rust sees it: the header's structs, and for each entry point a safe function over slices, named as there without `kd_`.
//! `include/kombudeva.h` says what each does; crate `kombudeva` is the binding that hosts use.
//!
//! A slice is as long as it says, and a `&mut` slice overlaps no other: just what the header asks of a C caller.
#![no_std]

pub mod raw;

pub use raw::{
    Answer, Choice, Facts, File, Hash, Hashed, Hashing, HashingAnswer, Heard, History, HistoryAnswer, HistoryEnd,
    Hybrid, Part, Placed, Repaired, Request, Sha1Answer, Sha1Hash, Stream, Torrent, V1Part, V1Piece, NODES,
};

pub fn version() -> u32 {
    unsafe { raw::kd_version() }
}

pub fn sha256(data: &[u8]) -> Hashed {
    unsafe { raw::kd_sha256(data.as_ptr(), data.len()) }
}

pub fn sha1(data: &[u8]) -> Sha1Answer {
    unsafe { raw::kd_sha1(data.as_ptr(), data.len()) }
}

pub fn hashing_begin() -> Hashing {
    unsafe { raw::kd_hashing_begin() }
}

pub fn hashing_more(state: Hashing, data: &[u8]) -> HashingAnswer {
    unsafe { raw::kd_hashing_more(state, data.as_ptr(), data.len()) }
}

pub fn hashing_end(state: Hashing) -> Hashed {
    unsafe { raw::kd_hashing_end(state) }
}

pub fn history_begin(piece_length: u64) -> HistoryAnswer {
    unsafe { raw::kd_history_begin(piece_length) }
}

pub fn history_more(state: History, data: &[u8], layer: &mut [u8]) -> HistoryAnswer {
    unsafe { raw::kd_history_more(state, data.as_ptr(), data.len(), layer.as_mut_ptr(), layer.len()) }
}

pub fn history_end(state: History, layer: &mut [u8]) -> HistoryEnd {
    unsafe { raw::kd_history_end(state, layer.as_mut_ptr(), layer.len()) }
}

pub fn store_size(length: u64, piece_length: u64) -> Answer {
    unsafe { raw::kd_store_size(length, piece_length) }
}

pub fn open(store: &mut [u8], length: u64, piece_length: u64, root: Hash) -> Answer {
    unsafe { raw::kd_open(store.as_mut_ptr(), store.len(), length, piece_length, root) }
}

pub fn facts(store: &[u8]) -> Facts {
    unsafe { raw::kd_facts(store.as_ptr(), store.len()) }
}

pub fn held(store: &[u8], layer: u64, index: u64) -> Hashed {
    unsafe { raw::kd_held(store.as_ptr(), store.len(), layer, index) }
}

pub fn take(store: &mut [u8], message: &[u8]) -> Answer {
    unsafe { raw::kd_take(store.as_mut_ptr(), store.len(), message.as_ptr(), message.len()) }
}

pub fn take_reject(store: &[u8], message: &[u8]) -> Answer {
    unsafe { raw::kd_take_reject(store.as_ptr(), store.len(), message.as_ptr(), message.len()) }
}

pub fn serve(store: &[u8], request: &[u8], out: &mut [u8]) -> Answer {
    unsafe { raw::kd_serve(store.as_ptr(), store.len(), request.as_ptr(), request.len(), out.as_mut_ptr(), out.len()) }
}

pub fn load_layer(store: &mut [u8], layer: &[u8]) -> Answer {
    unsafe { raw::kd_load_layer(store.as_mut_ptr(), store.len(), layer.as_ptr(), layer.len()) }
}

pub fn judge_block(store: &mut [u8], block: u64, data: &[u8]) -> Answer {
    unsafe { raw::kd_judge_block(store.as_mut_ptr(), store.len(), block, data.as_ptr(), data.len()) }
}

pub fn judge_piece(store: &mut [u8], piece: u64, data: &[u8]) -> Answer {
    unsafe { raw::kd_judge_piece(store.as_mut_ptr(), store.len(), piece, data.as_ptr(), data.len()) }
}

pub fn judge_hybrid_piece(store: &mut [u8], piece: u64, data: &[u8], v1: Sha1Hash, zeros: u64) -> Answer {
    unsafe { raw::kd_judge_hybrid_piece(store.as_mut_ptr(), store.len(), piece, data.as_ptr(), data.len(), v1, zeros) }
}

pub fn piece_hashes(store: &[u8], piece: u64, data: &[u8], out: &mut [u8]) -> Answer {
    let (bytes, size) = (data.as_ptr(), data.len());
    unsafe { raw::kd_piece_hashes(store.as_ptr(), store.len(), piece, bytes, size, out.as_mut_ptr(), out.len()) }
}

pub fn marked(store: &[u8], block: u64) -> Answer {
    unsafe { raw::kd_marked(store.as_ptr(), store.len(), block) }
}

pub fn clear(store: &mut [u8], block: u64) -> Answer {
    unsafe { raw::kd_clear(store.as_mut_ptr(), store.len(), block) }
}

pub fn bitfield(store: &[u8], out: &mut [u8]) -> Answer {
    unsafe { raw::kd_bitfield(store.as_ptr(), store.len(), out.as_mut_ptr(), out.len()) }
}

pub fn next_request(store: &[u8], layer: u64) -> Request {
    unsafe { raw::kd_next_request(store.as_ptr(), store.len(), layer) }
}

pub fn pick_piece(store: &[u8], counts: &[u32]) -> Choice {
    unsafe { raw::kd_pick_piece(store.as_ptr(), store.len(), counts.as_ptr(), counts.len()) }
}

pub fn save(store: &[u8], out: &mut [u8]) -> Answer {
    unsafe { raw::kd_save(store.as_ptr(), store.len(), out.as_mut_ptr(), out.len()) }
}

pub fn load(store: &mut [u8], saved: &[u8]) -> Answer {
    unsafe { raw::kd_load(store.as_mut_ptr(), store.len(), saved.as_ptr(), saved.len()) }
}

pub fn repair(store: &mut [u8], saved: &[u8]) -> Repaired {
    unsafe { raw::kd_repair(store.as_mut_ptr(), store.len(), saved.as_ptr(), saved.len()) }
}

pub fn extends(store: &[u8], old_length: u64, old_root: Hash, block: &[u8]) -> Answer {
    unsafe { raw::kd_extends(store.as_ptr(), store.len(), old_length, old_root, block.as_ptr(), block.len()) }
}

pub fn torrent_read(torrent: &[u8]) -> Torrent {
    unsafe { raw::kd_torrent_read(torrent.as_ptr(), torrent.len()) }
}

pub fn torrent_file(torrent: &[u8], file: u64) -> File {
    unsafe { raw::kd_torrent_file(torrent.as_ptr(), torrent.len(), file) }
}

pub fn torrent_path(torrent: &[u8], file: u64, element: u64) -> Part {
    unsafe { raw::kd_torrent_path(torrent.as_ptr(), torrent.len(), file, element) }
}

pub fn torrent_list(torrent: &[u8], out: &mut [u8]) -> Answer {
    unsafe { raw::kd_torrent_list(torrent.as_ptr(), torrent.len(), out.as_mut_ptr(), out.len()) }
}

pub fn torrent_info(torrent: &[u8]) -> Part {
    unsafe { raw::kd_torrent_info(torrent.as_ptr(), torrent.len()) }
}

pub fn torrent_name(torrent: &[u8]) -> Part {
    unsafe { raw::kd_torrent_name(torrent.as_ptr(), torrent.len()) }
}

pub fn torrent_hybrid(torrent: &[u8]) -> Hybrid {
    unsafe { raw::kd_torrent_hybrid(torrent.as_ptr(), torrent.len()) }
}

pub fn torrent_v1_piece(torrent: &[u8], file: u64, piece: u64) -> V1Piece {
    unsafe { raw::kd_torrent_v1_piece(torrent.as_ptr(), torrent.len(), file, piece) }
}

pub fn torrent_v1_pieces(torrent: &[u8], file: u64) -> V1Part {
    unsafe { raw::kd_torrent_v1_pieces(torrent.as_ptr(), torrent.len(), file) }
}

pub fn place(list: &[u8], piece_length: u64, piece: u64) -> Placed {
    unsafe { raw::kd_place(list.as_ptr(), list.len(), piece_length, piece) }
}

pub fn first_piece(list: &[u8], piece_length: u64, file: u64) -> Answer {
    unsafe { raw::kd_first_piece(list.as_ptr(), list.len(), piece_length, file) }
}

pub fn torrent_write(list: &[u8], text: &[u8], piece_length: u64, name: &[u8], out: &mut [u8]) -> Answer {
    unsafe {
        raw::kd_torrent_write(
            list.as_ptr(),
            list.len(),
            text.as_ptr(),
            text.len(),
            piece_length,
            name.as_ptr(),
            name.len(),
            out.as_mut_ptr(),
            out.len(),
        )
    }
}

pub fn stream_begin() -> Stream {
    unsafe { raw::kd_stream_begin() }
}

pub fn stream_hear(state: Stream, data: &[u8], room: &mut [u8]) -> Heard {
    unsafe { raw::kd_stream_hear(state, data.as_ptr(), data.len(), room.as_mut_ptr(), room.len()) }
}

pub fn frame(message: &[u8], out: &mut [u8]) -> Answer {
    unsafe { raw::kd_frame(message.as_ptr(), message.len(), out.as_mut_ptr(), out.len()) }
}
