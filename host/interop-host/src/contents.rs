//! What the host has from a torrent, read by the library.

use kombudeva::limits::BLOCK;
use kombudeva::{first_piece, store_size, Hash, Store, Torrent, V1Pieces};
use std::path::PathBuf;

/// A store in memory that it borrows.
pub type Lent<'m> = Store<&'m mut [u8]>;

pub struct Contents<'a> {
    pub info_hash: Hash,
    /// The encoded value of `info`, as metadata exchange sends it.
    pub info: &'a [u8],
    pub files: Vec<File<'a>>,
}

pub struct File<'a> {
    pub length: u64,
    pub root: Hash,
    pub path: PathBuf,
    pub layer: &'a [u8],
    /// Of a hybrid: the v1 hashes of its pieces.
    pub v1: Option<V1Pieces<'a>>,
    /// The number of its first piece: pieces are counted file by file in tree order.
    pub first_piece: u64,
    pub piece_length: u64,
}

impl<'a> Contents<'a> {
    pub fn read(bytes: &'a [u8]) -> Contents<'a> {
        let torrent = Torrent::read(bytes).expect("a good torrent");
        let info = torrent.info().expect("a good torrent");
        Contents { info_hash: torrent.info_hash, info, files: files(&torrent) }
    }

    pub fn pieces(&self) -> u64 {
        self.files.iter().map(File::pieces).sum()
    }
}

impl File<'_> {
    pub fn pieces(&self) -> u64 {
        self.length.div_ceil(self.piece_length)
    }

    pub fn blocks(&self) -> u64 {
        self.length.div_ceil(BLOCK)
    }

    /// The height of the file's tree.
    pub fn height(&self) -> u32 {
        self.blocks().next_power_of_two().trailing_zeros()
    }

    /// The number of the piece layer.
    pub fn piece_layer(&self) -> u32 {
        (self.piece_length / BLOCK).trailing_zeros()
    }

    /// Opens a store for this file in `memory`.
    pub fn open<'m>(&self, memory: &'m mut Vec<u8>) -> Lent<'m> {
        memory.resize(store_size(self.length, self.piece_length).expect("facts of a good torrent"), 0);
        Store::open(&mut memory[..], self.length, self.piece_length, self.root).expect("room of the store's size")
    }
}

fn files<'a>(torrent: &Torrent<'a>) -> Vec<File<'a>> {
    let mut list = vec![0; torrent.list_size()];
    torrent.list(&mut list).expect("room for the list");
    let piece_length = torrent.piece_length;
    let file = |number| {
        let file = torrent.file(number).expect("a file of the torrent");
        let elements = (0..file.elements).map(|element| torrent.path(number, element).expect("an element"));
        let path = elements.map(text).collect();
        let first_piece = first_piece(&list, piece_length, number).expect("a file of the list");
        let v1 = torrent.v1_pieces(number).ok();
        File { length: file.length, root: file.root, path, layer: file.layer, v1, first_piece, piece_length }
    };
    (0..torrent.files).map(file).collect()
}

fn text(element: &[u8]) -> &str {
    std::str::from_utf8(element).expect("paths here are text")
}
