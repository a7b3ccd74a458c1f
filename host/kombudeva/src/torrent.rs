//! Reading a v2 torrent, a hybrid one too.
//!
//! ```no_run
//! use kombudeva::Torrent;
//!
//! let bytes = std::fs::read("cells.torrent")?;
//! let torrent = Torrent::read(&bytes)?;
//! let mut memory = vec![0; torrent.list_size()];
//! for listed in torrent.list(&mut memory)? {
//!     let path: Vec<&[u8]> = listed.path().collect();
//!     println!("{} bytes: {path:?}", listed.file.length);
//! }
//! # Ok::<(), Box<dyn std::error::Error>>(())
//! ```

use crate::answer::answer;
use crate::limits::{RECORD, SHA1};
use crate::{Hash, Refusal, Sha1};

/// A good torrent, read from bytes that it borrows.
#[derive(Clone, Copy, Debug, PartialEq, Eq)]
pub struct Torrent<'a> {
    bytes: &'a [u8],
    /// The SHA-256 of its `info`.
    pub info_hash: Hash,
    /// The piece length of all its files.
    pub piece_length: u64,
    /// How many files it has.
    pub files: u64,
}

/// One file of a torrent.
#[derive(Clone, Copy, Debug, PartialEq, Eq)]
pub struct File<'a> {
    /// How many bytes it has.
    pub length: u64,
    /// The pieces root; zeros for an empty file.
    pub root: Hash,
    /// How many elements its path has.
    pub elements: u64,
    /// The piece layer, as [`Store::load_layer`](crate::Store::load_layer) takes it; empty if the file has none.
    pub layer: &'a [u8],
}

/// Where the parts of the path begin in a record.
const PATH: usize = 56;

/// Every file of a torrent in tree order, over the memory that the library wrote the list to.
#[derive(Clone, Debug)]
pub struct List<'a, 'm> {
    torrent: &'a [u8],
    records: core::slice::ChunksExact<'m, u8>,
}

/// One file of the list, with its path.
#[derive(Clone, Copy, Debug, PartialEq, Eq)]
pub struct Listed<'a, 'm> {
    /// The file.
    pub file: File<'a>,
    torrent: &'a [u8],
    /// Start and size of each path element.
    parts: &'m [u8],
}

impl<'a> Torrent<'a> {
    /// Reads a whole torrent.
    ///
    /// # Errors
    ///
    /// Numbers 19 to 28, [`TorrentTooLarge`](Refusal::TorrentTooLarge) to [`LayerDiffers`](Refusal::LayerDiffers), as the header says;
    /// then 31, [`HalvesDiffer`](Refusal::HalvesDiffer), for a hybrid whose halves don't fit.
    pub fn read(bytes: &'a [u8]) -> Result<Torrent<'a>, Refusal> {
        let boundary::Torrent { number, info_hash, piece_length, files } = boundary::torrent_read(bytes);
        answer(number, Torrent { bytes, info_hash: info_hash.bytes, piece_length, files })
    }

    /// A file by its number in tree order. Each call checks the whole torrent anew; [`Torrent::list`] has all files in one pass.
    ///
    /// # Errors
    ///
    /// [`NoSuchPart`](Refusal::NoSuchPart).
    pub fn file(&self, file: u64) -> Result<File<'a>, Refusal> {
        let given = boundary::torrent_file(self.bytes, file);
        let layer = self.part(given.layer_start, given.layer_size);
        answer(given.number, File { length: given.length, root: given.root.bytes, elements: given.elements, layer })
    }

    /// An element of a file's path, from 0: any bytes, but not empty, `.` or `..`, and without `/` and zero bytes.
    ///
    /// # Errors
    ///
    /// [`NoSuchPart`](Refusal::NoSuchPart): no such file, or no such element.
    pub fn path(&self, file: u64, element: u64) -> Result<&'a [u8], Refusal> {
        let given = boundary::torrent_path(self.bytes, file, element);
        answer(given.number, self.part(given.start, given.size))
    }

    /// The encoded value of `info`, which the info hash is of, as the metadata exchange serves it.
    ///
    /// # Errors
    ///
    /// None, of bytes that [`Torrent::read`] took.
    pub fn info(&self) -> Result<&'a [u8], Refusal> {
        let given = boundary::torrent_info(self.bytes);
        answer(given.number, self.part(given.start, given.size))
    }

    /// The string `name` in `info`: any bytes, no rule for path elements has been asked of it.
    ///
    /// # Errors
    ///
    /// [`NoSuchPart`](Refusal::NoSuchPart) if there is none.
    pub fn name(&self) -> Result<&'a [u8], Refusal> {
        let given = boundary::torrent_name(self.bytes);
        answer(given.number, self.part(given.start, given.size))
    }

    /// The v1 info hash of a hybrid, SHA-1 of its `info`; `None` if the torrent is no hybrid.
    ///
    /// # Errors
    ///
    /// None, of bytes that [`Torrent::read`] took.
    pub fn hybrid(&self) -> Result<Option<Sha1>, Refusal> {
        let given = boundary::torrent_hybrid(self.bytes);
        answer(given.number, (given.hybrid == 1).then_some(given.info_hash.bytes))
    }

    /// The v1 hash of a piece of a file, as [`Store::judge_hybrid_piece`](crate::Store::judge_hybrid_piece) takes it. Each call checks
    /// the whole torrent anew; [`Torrent::v1_pieces`] has all of a file.
    ///
    /// # Errors
    ///
    /// In this order: [`NoSuchPart`](Refusal::NoSuchPart) for no such file, [`RuleBroken`](Refusal::RuleBroken) where the torrent is no
    /// hybrid, or the file has no such piece.
    pub fn v1_piece(&self, file: u64, piece: u64) -> Result<V1Piece, Refusal> {
        let given = boundary::torrent_v1_piece(self.bytes, file, piece);
        answer(given.number, V1Piece { hash: given.hash.bytes, zeros: given.zeros })
    }

    /// The v1 hashes of all pieces of a file.
    ///
    /// # Errors
    ///
    /// In this order: [`NoSuchPart`](Refusal::NoSuchPart) for no such file, [`RuleBroken`](Refusal::RuleBroken) where the torrent is no
    /// hybrid.
    pub fn v1_pieces(&self, file: u64) -> Result<V1Pieces<'a>, Refusal> {
        let given = boundary::torrent_v1_pieces(self.bytes, file);
        let hashes = self.part(given.start, given.size);
        answer(given.number, V1Pieces { start: given.start as usize, hashes, zeros: given.zeros })
    }

    /// The bytes of memory that [`Torrent::list`] needs.
    #[must_use]
    pub fn list_size(&self) -> usize {
        self.files as usize * RECORD
    }

    /// All files with their paths in one pass, into lent memory.
    ///
    /// # Errors
    ///
    /// [`NoRoom`](Refusal::NoRoom) if that is shorter than [`Torrent::list_size`].
    pub fn list<'m>(&self, memory: &'m mut [u8]) -> Result<List<'a, 'm>, Refusal> {
        let given = boundary::torrent_list(self.bytes, memory);
        let records = memory[..given.count as usize].chunks_exact(RECORD);
        answer(given.number, List { torrent: self.bytes, records })
    }

    /// A part of the torrent's bytes; beside a refusal it is empty.
    fn part(&self, start: u64, size: u64) -> &'a [u8] {
        part_of(self.bytes, start, size)
    }
}

/// The v1 hash of a piece of a hybrid torrent.
#[derive(Clone, Copy, Debug, PartialEq, Eq)]
pub struct V1Piece {
    /// The SHA-1 of the piece and of the zeros behind it.
    pub hash: Sha1,
    /// How many zeros of padding behind the piece it covers.
    pub zeros: u64,
}

/// The v1 hashes of a file's pieces, over the torrent's bytes.
#[derive(Clone, Copy, Debug, PartialEq, Eq)]
pub struct V1Pieces<'a> {
    /// Where they begin among the torrent's bytes; 0 for an empty file.
    pub start: usize,
    /// The hashes, [`SHA1`](crate::limits::SHA1) bytes each, in a row.
    pub hashes: &'a [u8],
    /// How many zeros behind the last piece its hash covers.
    pub zeros: u64,
}

impl V1Pieces<'_> {
    /// The v1 hash of a piece by its number in the file, if the file has it.
    #[must_use]
    pub fn piece(&self, piece: u64) -> Option<V1Piece> {
        let last = (self.hashes.len() / SHA1).checked_sub(1)?;
        let piece = usize::try_from(piece).ok().filter(|piece| *piece <= last)?;
        let hash = self.hashes[piece * SHA1..][..SHA1].try_into().ok()?;
        Some(V1Piece { hash, zeros: if piece == last { self.zeros } else { 0 } })
    }
}

/// A piece of a file, both counted from 0.
#[derive(Clone, Copy, Debug, PartialEq, Eq)]
pub struct Placed {
    /// The file's number.
    pub file: u64,
    /// The piece's number in it.
    pub piece: u64,
}

/// Where a piece of the wire stands, by the memory that [`Torrent::list`] has written to. The wire counts pieces file by file.
///
/// # Errors
///
/// In this order: [`WrongSize`](Refusal::WrongSize) for bytes that are no list,
/// [`PieceLengthOutOfRange`](Refusal::PieceLengthOutOfRange), [`NoSuchPart`](Refusal::NoSuchPart) past the last piece.
pub fn place(list: &[u8], piece_length: u64, piece: u64) -> Result<Placed, Refusal> {
    let given = boundary::place(list, piece_length, piece);
    answer(given.number, Placed { file: given.file, piece: given.piece })
}

/// The number on the wire of a file's first piece; an empty file has that of the next file.
///
/// # Errors
///
/// As [`place`]; [`NoSuchPart`](Refusal::NoSuchPart) for no such file.
pub fn first_piece(list: &[u8], piece_length: u64, file: u64) -> Result<u64, Refusal> {
    let given = boundary::first_piece(list, piece_length, file);
    answer(given.number, given.count)
}

fn part_of(torrent: &[u8], start: u64, size: u64) -> &[u8] {
    &torrent[start as usize..][..size as usize]
}

/// The number in some bytes, big-endian.
fn number(bytes: &[u8]) -> u64 {
    bytes.iter().fold(0, |number, byte| number << 8 | u64::from(*byte))
}

impl<'a, 'm> List<'a, 'm> {
    /// A file by its number in tree order.
    #[must_use]
    pub fn get(&self, file: usize) -> Option<Listed<'a, 'm>> {
        self.clone().nth(file)
    }

    fn listed(&self, record: &'m [u8]) -> Listed<'a, 'm> {
        let elements = number(&record[48..52]);
        let layer = part_of(self.torrent, number(&record[40..44]), number(&record[44..48]));
        let root = record[8..40].try_into().expect("32 bytes");
        let file = File { length: number(&record[..8]), root, elements, layer };
        Listed { file, torrent: self.torrent, parts: &record[PATH..][..elements as usize * 8] }
    }
}

impl<'a, 'm> Iterator for List<'a, 'm> {
    type Item = Listed<'a, 'm>;

    fn next(&mut self) -> Option<Listed<'a, 'm>> {
        self.records.next().map(|record| self.listed(record))
    }

    fn nth(&mut self, file: usize) -> Option<Listed<'a, 'm>> {
        self.records.nth(file).map(|record| self.listed(record))
    }

    fn size_hint(&self) -> (usize, Option<usize>) {
        self.records.size_hint()
    }
}

impl ExactSizeIterator for List<'_, '_> {}

impl<'a, 'm> Listed<'a, 'm> {
    /// The path, element by element: any bytes, but none empty, `.` or `..`, and without `/` and zero bytes.
    pub fn path(&self) -> impl ExactSizeIterator<Item = &'a [u8]> + 'm
    where
        'a: 'm,
    {
        let torrent = self.torrent;
        self.parts.chunks_exact(8).map(move |part| part_of(torrent, number(&part[..4]), number(&part[4..])))
    }
}
