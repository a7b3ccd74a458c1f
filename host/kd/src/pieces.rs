//! Judging the pieces of a file, each in a small store, so that memory does not grow with the file.
//!
//! The library has read the torrent, so the file's piece layer gives its root. A whole piece's hash there is the root of the tree over
//! its blocks alone: a store opened with it judges that piece. The last piece may be short and is filled up to a whole one in the file's
//! tree: it is judged beside the piece before it, as the second of a file of two pieces.
//!
//! A piece of a hybrid is judged by both halves.

use crate::torrent::Entry;
use kombudeva::limits::HASH;
use kombudeva::{sha256, store_size, Refusal, Store, V1Piece};

pub struct Pieces<'a> {
    file: &'a Entry,
    piece_length: u64,
    memory: Vec<u8>,
}

impl<'a> Pieces<'a> {
    /// `file` is not empty.
    pub fn new(file: &'a Entry, piece_length: u64) -> Result<Pieces<'a>, Refusal> {
        let memory = vec![0; store_size(file.length.min(2 * piece_length), piece_length)?];
        Ok(Pieces { file, piece_length, memory })
    }

    /// Where a piece begins, and how many bytes it has.
    pub fn place(&self, piece: u64) -> (u64, u64) {
        let at = piece * self.piece_length;
        (at, self.piece_length.min(self.file.length - at))
    }

    pub fn judge(&mut self, piece: u64, data: &[u8]) -> Result<(), Refusal> {
        let (at, size) = self.place(piece);
        let Entry { length, root, layer, v1, .. } = self.file;
        let v1 = v1.as_ref().and_then(|v1| v1.piece(piece));
        if layer.is_empty() {
            return judged(Store::open(&mut self.memory[..], *length, self.piece_length, *root)?, 0, data, v1);
        }
        let hashes = &layer[piece as usize * HASH..];
        if size == self.piece_length {
            let root = hashes[..HASH].try_into().expect("a hash");
            return judged(Store::open(&mut self.memory[..], size, self.piece_length, root)?, 0, data, v1);
        }
        let pair = &layer[layer.len() - 2 * HASH..];
        let both = length - (at - self.piece_length);
        let mut store = Store::open(&mut self.memory[..], both, self.piece_length, sha256(pair)?)?;
        store.load_layer(pair)?;
        judged(store, 1, data, v1)
    }
}

fn judged(mut store: Store<&mut [u8]>, piece: u64, data: &[u8], v1: Option<V1Piece>) -> Result<(), Refusal> {
    match v1 {
        Some(v1) => store.judge_hybrid_piece(piece, data, v1),
        None => store.judge_piece(piece, data),
    }
}
