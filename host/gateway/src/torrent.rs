//! A torrent that this gateway keeps: its files, each with its store behind a lock, and the connections about it.

use crate::disk::{Disk, Place};
use crate::held::{Began, Held};
use crate::line::Line;
use crate::say;
use kombudeva::limits::BLOCK;
use kombudeva::{first_piece, place, store_size, Facts, Hash, Refusal};
use readable::{hex, in_status};
use std::collections::BTreeMap;
use std::ffi::OsStr;
use std::os::unix::ffi::OsStrExt;
use std::path::{Path, PathBuf};
use std::sync::{Arc, Mutex};

/// Where a torrent came from.
#[derive(Clone, Debug, PartialEq, Eq)]
pub enum Source {
    /// A person put it into the folder, under this name.
    Folder(String),
    /// Our own history of this name: its files are the logger's, at this path.
    Own(String, PathBuf),
    /// A version of this history of another gateway.
    Followed(String),
}

pub struct File {
    pub path: Vec<Vec<u8>>,
    pub length: u64,
    pub root: Hash,
    pub first_piece: u64,
    /// None for an empty file.
    pub held: Option<Mutex<Held>>,
}

pub struct Torrent {
    pub info_hash: Hash,
    pub name: String,
    pub source: Source,
    pub piece_length: u64,
    pub pieces: u64,
    pub files: Vec<File>,
    pub bytes: Vec<u8>,
    /// The library's list of the files.
    list: Vec<u8>,
    /// Bytes of memory that the stores take.
    pub memory: usize,
    lines: Mutex<BTreeMap<u64, Arc<Line>>>,
}

/// Why a torrent is not kept.
#[derive(Clone, Debug, PartialEq, Eq)]
pub enum Refused {
    Number(Refusal),
    NoMemory,
}

impl std::fmt::Display for Refused {
    fn fmt(&self, f: &mut std::fmt::Formatter) -> std::fmt::Result {
        match self {
            Refused::Number(refusal) => refusal.fmt(f),
            Refused::NoMemory => f.write_str("its stores need more memory than limits.stores has"),
        }
    }
}

impl From<Refusal> for Refused {
    fn from(refusal: Refusal) -> Refused {
        Refused::Number(refusal)
    }
}

/// The path of a file below a folder. The library has refused every element that could lead out of it.
pub fn below(folder: &Path, path: &[Vec<u8>]) -> PathBuf {
    path.iter().fold(folder.to_path_buf(), |whole, element| whole.join(OsStr::from_bytes(element)))
}

/// Where the data of a torrent's file lies, below the gateway's folder.
pub fn data_path(info_hash: &Hash, path: &[Vec<u8>]) -> PathBuf {
    below(&Path::new("data").join(hex(info_hash)), path)
}

impl Torrent {
    /// Reads the torrent and begins the store of each file. `room` is the memory that stores may take.
    pub fn begin(disk: &dyn Disk, bytes: Vec<u8>, source: Source, room: usize) -> Result<Torrent, Refused> {
        let read = kombudeva::Torrent::read(&bytes)?;
        let (info_hash, piece_length) = (read.info_hash, read.piece_length);
        let mut list = vec![0; read.list_size()];
        let listed: Vec<_> =
            read.list(&mut list)?.map(|one| (one.file, one.path().map(<[u8]>::to_vec).collect())).collect();
        let mut memory = 0;
        for (file, _) in listed.iter().filter(|(file, _): &&(kombudeva::File, Vec<Vec<u8>>)| file.length > 0) {
            memory += store_size(file.length, piece_length)?;
        }
        if memory > room {
            return Err(Refused::NoMemory);
        }
        let name = in_status(read.name().unwrap_or(b"(without a name)"));
        let mut files = Vec::new();
        for (number, (file, path)) in listed.into_iter().enumerate() {
            let first_piece = first_piece(&list, piece_length, number as u64)?;
            let held = match file.length {
                0 => None,
                length => {
                    let facts = Facts { length, piece_length, root: file.root };
                    let (place, save) = places(&source, &info_hash, number, &path);
                    let told = in_status(&path.join(&b"/"[..]));
                    let (held, began) = Held::begin(disk, facts, file.layer, told, place, save)?;
                    if began == Began::Repaired {
                        say!("repaired", torrent = name, file = held.name);
                    }
                    Some(Mutex::new(held))
                }
            };
            files.push(File { path, length: file.length, root: file.root, first_piece, held });
        }
        let pieces = files.iter().map(|file| file.length.div_ceil(piece_length)).sum();
        let lines = Mutex::default();
        Ok(Torrent { info_hash, name, source, piece_length, pieces, files, bytes, list, memory, lines })
    }

    /// The file and its piece that a piece of the wire is.
    pub fn place(&self, piece: u64) -> Option<(usize, u64)> {
        let placed = place(&self.list, self.piece_length, piece).ok()?;
        Some((placed.file as usize, placed.piece))
    }

    /// A file that is not empty.
    pub fn held(&self, file: usize) -> &Mutex<Held> {
        self.files[file].held.as_ref().expect("a file with a piece is not empty")
    }

    pub fn all_held(&self) -> impl Iterator<Item = (&File, &Mutex<Held>)> {
        self.files.iter().filter_map(|file| Some((file, file.held.as_ref()?)))
    }

    /// The files of a pieces root: more than one where files are the same.
    pub fn of_root<'a>(&'a self, root: &'a [u8]) -> impl Iterator<Item = &'a Mutex<Held>> {
        self.all_held().filter(move |(file, _)| file.root == root).map(|(_, held)| held)
    }

    /// The block that a request is about: file, block, where in it, and how many bytes of it there are. Requests reach over no block's end.
    pub fn block(&self, part: crate::wire::Part) -> Option<(usize, u64, usize)> {
        let (begin, size) = (u64::from(part.begin), u64::from(part.size));
        if size == 0 || size > BLOCK || begin + size > self.piece_length || begin / BLOCK != (begin + size - 1) / BLOCK
        {
            return None;
        }
        let (file, piece) = self.place(u64::from(part.piece))?;
        let at = piece * self.piece_length + begin;
        (at < self.files[file].length).then_some((file, at / BLOCK, (at % BLOCK) as usize))
    }

    /// The bitfield of all files: pieces whose blocks were all judged right in this run.
    pub fn bitfield(&self) -> Vec<u8> {
        let mut bits = vec![0_u8; self.pieces.div_ceil(8) as usize];
        for (file, held) in self.all_held() {
            let held = held.lock().unwrap();
            let of_file = held.bitfield();
            for piece in 0..held.pieces() {
                if of_file[piece as usize / 8] & (0x80 >> (piece % 8)) != 0 {
                    let wire = file.first_piece + piece;
                    bits[wire as usize / 8] |= 0x80 >> (wire % 8);
                }
            }
        }
        bits
    }

    pub fn is_whole(&self) -> bool {
        self.all_held().all(|(_, held)| held.lock().unwrap().is_whole())
    }

    pub fn add_line(&self, line: &Arc<Line>) {
        self.lines.lock().unwrap().insert(line.id, line.clone());
    }

    pub fn remove_line(&self, id: u64) {
        self.lines.lock().unwrap().remove(&id);
    }

    pub fn lines(&self) -> Vec<Arc<Line>> {
        self.lines.lock().unwrap().values().cloned().collect()
    }

    /// Tells every neighbour of a piece that is whole now.
    pub fn announce(&self, file: usize, piece: u64) {
        for line in self.lines() {
            line.send_have(self.files[file].first_piece + piece);
        }
    }

    /// Ends all connections, to be begun afresh: what we told of our pieces is no longer so.
    pub fn renew(&self, why: &'static str) {
        for line in self.lines() {
            line.close(why);
        }
    }
}

fn places(source: &Source, info_hash: &Hash, number: usize, path: &[Vec<u8>]) -> (Place, Option<PathBuf>) {
    match source {
        Source::Own(_, logger) => {
            // A history of one file has that file's own path.
            let place = if logger.is_dir() { below(logger, path) } else { logger.clone() };
            (Place::Outside(place), None)
        }
        _ => {
            let save = Path::new("stores").join(hex(info_hash)).join(format!("{number}.kds"));
            (Place::Inside(data_path(info_hash, path)), Some(save))
        }
    }
}
