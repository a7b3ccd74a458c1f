//! A torrent as the verbs need it, read and listed by the library.

use crate::end::Failure;
use kombudeva::limits::{LARGEST_TORRENT, SHA1};
use kombudeva::{Hash, Refusal, Sha1, Torrent, V1Piece, V1Pieces};
use std::fs::File;
use std::io::{self, Read};
use std::path::Path;

pub struct Meta {
    pub info_hash: Hash,
    /// The v1 info hash of a hybrid.
    pub v1_info_hash: Option<Sha1>,
    pub piece_length: u64,
    pub name: Option<Vec<u8>>,
    pub files: Vec<Entry>,
}

/// One file of a torrent.
#[derive(Debug)]
pub struct Entry {
    pub length: u64,
    pub root: Hash,
    pub layer: Vec<u8>,
    pub path: Vec<Vec<u8>>,
    /// Of a hybrid whose pieces are to be judged: their v1 hashes.
    pub v1: Option<V1Hashes>,
}

/// The v1 hashes of a file's pieces, and the zeros that the last of them covers.
#[derive(Debug)]
pub struct V1Hashes {
    hashes: Vec<u8>,
    zeros: u64,
}

impl V1Hashes {
    pub fn piece(&self, piece: u64) -> Option<V1Piece> {
        V1Pieces { start: 0, hashes: &self.hashes, zeros: self.zeros }.piece(piece)
    }
}

impl Entry {
    pub fn pieces(&self, piece_length: u64) -> u64 {
        self.length.div_ceil(piece_length)
    }

    /// The bytes from its end to the end of its last piece.
    fn gap(&self, piece_length: u64) -> u64 {
        self.length.next_multiple_of(piece_length) - self.length
    }

    /// The path with `/` between its elements, none of which has one.
    pub fn joined(&self) -> Vec<u8> {
        self.path.join(&b"/"[..])
    }
}

impl Meta {
    pub fn read(path: &Path) -> Result<Meta, Failure> {
        Meta::by(path, Meta::of)
    }

    /// With the v1 hashes of a hybrid, by which its pieces are judged too.
    pub fn to_judge(path: &Path) -> Result<Meta, Failure> {
        Meta::by(path, |bytes| {
            let mut meta = Meta::of(bytes)?;
            if meta.v1_info_hash.is_some() {
                add_v1_hashes(bytes, &Torrent::read(bytes)?, &mut meta.files)?;
            }
            Ok(meta)
        })
    }

    fn by(path: &Path, read: impl Fn(&[u8]) -> Result<Meta, Refusal>) -> Result<Meta, Failure> {
        let bytes = torrent_bytes(path).map_err(|error| Failure::unreadable(path, &error))?;
        read(&bytes).map_err(|refusal| Failure::refused(path, refusal))
    }

    fn of(bytes: &[u8]) -> Result<Meta, Refusal> {
        let torrent = Torrent::read(bytes)?;
        let mut memory = vec![0; torrent.list_size()];
        let entry = |listed: kombudeva::Listed| Entry {
            length: listed.file.length,
            root: listed.file.root,
            layer: listed.file.layer.to_vec(),
            path: listed.path().map(<[u8]>::to_vec).collect(),
            v1: None,
        };
        let files = torrent.list(&mut memory)?.map(entry).collect();
        let name = torrent.name().ok().map(<[u8]>::to_vec);
        let v1_info_hash = torrent.hybrid()?;
        Ok(Meta { info_hash: torrent.info_hash, v1_info_hash, piece_length: torrent.piece_length, name, files })
    }

    pub fn length(&self) -> u64 {
        self.files.iter().map(|file| file.length).sum()
    }

    pub fn pieces(&self) -> u64 {
        self.files.iter().map(|file| file.pieces(self.piece_length)).sum()
    }
}

/// Gives each file of a hybrid its v1 hashes. A call reads the whole torrent, so that not every file is asked about: each begins on a piece, and so
/// its hashes follow those of the file before it, unless whole pieces of padding lie between. Then the last file's begin later than they would.
fn add_v1_hashes(bytes: &[u8], torrent: &Torrent, files: &mut [Entry]) -> Result<(), Refusal> {
    let full = |file: &&Entry| file.length > 0;
    let last = files.iter().rposition(|file| file.length > 0);
    let Some((first, last)) = files.iter().position(|file| file.length > 0).zip(last) else { return Ok(()) };
    let (begin, end) = (torrent.v1_pieces(first as u64)?.start, torrent.v1_pieces(last as u64)?);
    let before: u64 = files[..last].iter().filter(full).map(|file| file.pieces(torrent.piece_length)).sum();
    let follow = end.start == begin + before as usize * SHA1;
    let mut at = begin;
    for (number, file) in files.iter_mut().enumerate().filter(|(_, file)| file.length > 0) {
        let size = file.pieces(torrent.piece_length) as usize * SHA1;
        let row = match number {
            number if number == last => end,
            // Up to the next file's first piece there is padding.
            _ if follow => V1Pieces { start: at, hashes: &bytes[at..at + size], zeros: file.gap(torrent.piece_length) },
            number => torrent.v1_pieces(number as u64)?,
        };
        file.v1 = Some(V1Hashes { hashes: row.hashes.to_vec(), zeros: row.zeros });
        at += size;
    }
    Ok(())
}

/// At most one byte more than a torrent may have, so that a larger one is answered 19 without being read whole.
fn torrent_bytes(path: &Path) -> io::Result<Vec<u8>> {
    let mut bytes = Vec::new();
    let source: Box<dyn Read> =
        if path == Path::new("-") { Box::new(io::stdin()) } else { Box::new(File::open(path)?) };
    source.take(LARGEST_TORRENT as u64 + 1).read_to_end(&mut bytes)?;
    Ok(bytes)
}
