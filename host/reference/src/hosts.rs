//! What hosts need besides the document's calls: a store's facts, the parts that `info` and its `name` are, a piece's block hashes as a message,
//! and pieces as the wire counts them. (docs/changes/15-hosts.md.)

use crate::bencode::{find, read as read_bencoding};
use crate::ids::HASHES;
use crate::limits::{LARGEST_TORRENT, LONGEST_FILE, RECORD};
use crate::number::*;
use crate::pieces::piece_judged;
use crate::sha256::Hash;
use crate::store::facts_of;
use crate::torrent::{contents, Part};
use crate::tree::{leaves, piece_length_in_range};
use crate::Answer;
use std::ops::Range;

/// A number, and beside 0 what a store is about.
#[derive(Clone, Copy, Debug, PartialEq, Eq)]
pub struct Named {
    pub number: u32,
    pub length: u64,
    pub piece_length: u64,
    pub root: Hash,
}

/// A number, and beside 0 a file and a piece of it.
#[derive(Clone, Copy, Debug, PartialEq, Eq)]
pub struct Placed {
    pub number: u32,
    pub file: u64,
    pub piece: u64,
}

impl Placed {
    pub fn refused(number: u32) -> Placed {
        Placed { number, file: 0, piece: 0 }
    }
}

/// The facts that a store names.
pub fn facts(store: &[u8]) -> Named {
    match facts_of(store) {
        Some(facts) => Named { number: DONE, length: facts.length, piece_length: facts.piece_length, root: facts.root },
        None => Named { number: UNUSABLE, length: 0, piece_length: 0, root: [0; 32] },
    }
}

/// The parts of a good torrent that the value of `info` and the string `name` in it are.
fn parts(torrent: &[u8]) -> Result<(Range<usize>, Option<Range<usize>>), u32> {
    contents(torrent)?;
    let outer = read_bencoding(torrent)?;
    let info = find(torrent, outer.dictionary().unwrap(), b"info").unwrap();
    let name = find(torrent, info.dictionary().unwrap(), b"name").and_then(|value| value.string());
    Ok((info.part.clone(), name))
}

fn part_of(found: Result<Range<usize>, u32>) -> Part {
    match found {
        Ok(part) => Part { number: DONE, start: part.start as u64, size: part.len() as u64 },
        Err(number) => Part { number, start: 0, size: 0 },
    }
}

/// The encoded value that the info hash is of.
pub fn torrent_info(torrent: &[u8]) -> Part {
    part_of(parts(torrent).map(|(info, _)| info))
}

/// The content of `name`.
pub fn torrent_name(torrent: &[u8]) -> Part {
    part_of(parts(torrent).and_then(|(_, name)| name.ok_or(NO_SUCH_PART)))
}

/// The block hashes of a piece that is right, as the hashes message that teaches them.
pub fn piece_hashes(store: &[u8], piece: u64, data: &[u8], out: &mut [u8]) -> Answer {
    let facts = match piece_judged(store, piece, data) {
        Ok(facts) => facts,
        Err(number) => return Answer::refused(number),
    };
    let node = facts.piece_position(piece);
    if node.layer == 0 {
        return Answer::done(0);
    }
    let run = leaves(data, 1 << node.layer);
    let mut message = vec![HASHES];
    message.extend(facts.root);
    for number in [0, (node.index * run.len() as u64) as u32, run.len() as u32, 0] {
        message.extend(number.to_be_bytes());
    }
    message.extend(run.concat());
    match out.get_mut(..message.len()) {
        Some(room) => room.copy_from_slice(&message),
        None => return Answer::refused(NO_ROOM),
    }
    Answer::done(message.len() as u64)
}

/// The pieces of each file of a list, or the number it is refused with.
fn counts(list: &[u8], piece_length: u64) -> Result<Vec<u64>, u32> {
    let records = list.chunks_exact(RECORD);
    let lengths: Vec<u64> = records.clone().map(|record| u64::from_be_bytes(record[..8].try_into().unwrap())).collect();
    let is_right = records.remainder().is_empty() && lengths.len() <= LARGEST_TORRENT;
    if !is_right || lengths.iter().any(|length| *length > LONGEST_FILE) {
        return Err(WRONG_SIZE);
    }
    if !piece_length_in_range(piece_length) {
        return Err(PIECE_LENGTH_OUT_OF_RANGE);
    }
    Ok(lengths.iter().map(|length| length.div_ceil(piece_length)).collect())
}

/// Where a piece of the wire stands: the pieces of all files are counted out one by one.
pub fn place(list: &[u8], piece_length: u64, piece: u64) -> Placed {
    let counts = match counts(list, piece_length) {
        Ok(counts) => counts,
        Err(number) => return Placed::refused(number),
    };
    let mut first = 0;
    for (file, count) in counts.iter().enumerate() {
        if (first..first + count).contains(&piece) {
            return Placed { number: DONE, file: file as u64, piece: piece - first };
        }
        first += count;
    }
    Placed::refused(NO_SUCH_PART)
}

/// The number on the wire of a file's first piece.
pub fn first_piece(list: &[u8], piece_length: u64, file: u64) -> Answer {
    match counts(list, piece_length) {
        Ok(counts) if file < counts.len() as u64 => Answer::done(counts[..file as usize].iter().sum()),
        Ok(_) => Answer::refused(NO_SUCH_PART),
        Err(number) => Answer::refused(number),
    }
}

#[cfg(test)]
mod tests {
    use super::*;
    use crate::messages::take;
    use crate::store::{held, open, store_size};
    use crate::tree::root_of_file;

    fn list(lengths: &[u64]) -> Vec<u8> {
        let record = |length: &u64| [&length.to_be_bytes()[..], &[0; RECORD - 8]].concat();
        lengths.iter().flat_map(record).collect()
    }

    #[test]
    fn each_piece_has_one_place() {
        let list = list(&[0, 16384, 0, 40000, 1]);
        let places: Vec<_> = (0..5).map(|piece| place(&list, 16384, piece)).map(|at| (at.file, at.piece)).collect();
        assert_eq!(places, [(1, 0), (3, 0), (3, 1), (3, 2), (4, 0)]);
        assert_eq!(place(&list, 16384, 5), Placed::refused(NO_SUCH_PART));
        let firsts: Vec<_> = (0..6).map(|file| first_piece(&list, 16384, file)).collect();
        assert_eq!(firsts[..5], [0, 0, 1, 1, 4].map(Answer::done));
        assert_eq!(firsts[5], Answer::refused(NO_SUCH_PART));
        assert_eq!(place(&list[1..], 16384, 0).number, WRONG_SIZE);
        assert_eq!(place(&list, 16385, 0).number, PIECE_LENGTH_OUT_OF_RANGE);
    }

    #[test]
    fn a_pieces_hashes_are_taken() {
        let file: Vec<u8> = (0..100_000).map(|i| (i * 7 / 3) as u8).collect();
        let mut store = vec![0; store_size(100_000, 131072).count as usize];
        open(&mut store, 100_000, 131072, root_of_file(&file));
        let mut out = vec![0; 1000];
        assert_eq!(piece_hashes(&store, 0, &file, &mut out), Answer::done(49 + 8 * 32));
        assert_eq!(piece_hashes(&store, 0, &file, &mut out[..304]), Answer::refused(NO_ROOM));
        assert_eq!(take(&mut store, &out[..305]).number, DONE);
        assert_eq!(held(&store, 0, 7).hash, [0; 32]);
        assert_eq!(facts(&store).length, 100_000);
    }
}
