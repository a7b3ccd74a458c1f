//! The v1 half of a hybrid torrent: number 31, and what its hashes cover. Request 12 of document 02, with BEP 3 and BEP 47.
//!
//! The half is read to a list of entries, padding among them; their files are compared with the v2 half's as whole lists, and every
//! place is a sum of the lengths before it.

use crate::bencode::{find, Kind, Value};
use crate::number::*;
use crate::pieces::judge_piece;
use crate::sha1::{sha1, Sha1};
use crate::store::facts_of;
use crate::torrent::{contents, Listed};
use crate::Answer;
use std::ops::Range;

type Entries = [(Range<usize>, Value)];

/// A file or padding of the v1 half: its length, and the path of a file.
#[derive(Clone, Debug, PartialEq, Eq)]
pub enum Entry {
    File(u64, Vec<Range<usize>>),
    Padding(u64),
}

impl Entry {
    fn length(&self) -> u64 {
        match self {
            Entry::File(length, _) | Entry::Padding(length) => *length,
        }
    }
}

/// The v1 half of a hybrid whose halves fit: where `info` and `pieces` stand, and what is hashed.
#[derive(Clone, Debug, PartialEq, Eq)]
pub struct V1Half {
    pub info: Range<usize>,
    pub pieces: Range<usize>,
    pub entries: Vec<Entry>,
}

/// The v1 half in `info` of a torrent whose v2 half has these files: none if it is no hybrid, 31 if its halves don't fit.
pub fn v1_half(torrent: &[u8], info: &Value, files: &[Listed], piece_length: u64) -> Result<Option<V1Half>, u32> {
    let inside = info.dictionary().unwrap_or(&[]);
    let Some(pieces) = find(torrent, inside, b"pieces") else { return Ok(None) };
    let fitting = || {
        let pieces = pieces.string()?;
        let entries = entries(torrent, inside)?;
        let fits = same_files(torrent, &entries, files)
            && on_boundaries(&entries, piece_length)
            && pieces.len() as u64 == 20 * total(&entries)?.div_ceil(piece_length);
        fits.then(|| V1Half { info: info.part.clone(), pieces, entries })
    };
    fitting().map(Some).ok_or(HALVES_DIFFER)
}

/// `files` without `length`, with a string `name` or none; or `length` with a string `name`.
fn entries(torrent: &[u8], info: &Entries) -> Option<Vec<Entry>> {
    let (files, length, name) =
        (find(torrent, info, b"files"), find(torrent, info, b"length"), find(torrent, info, b"name"));
    let name = name.map(Value::string);
    match (files, length) {
        (Some(files), None) => {
            let Kind::List(files) = &files.kind else { return None };
            if name == Some(None) {
                return None;
            }
            files.iter().map(|entry| entry_of(torrent, entry)).collect()
        }
        (None, Some(length)) => Some(vec![Entry::File(natural(length)?, vec![name??])]),
        _ => None,
    }
}

/// An entry of `files`. Padding is an `attr` with a `p` in it, and may do without a path.
fn entry_of(torrent: &[u8], entry: &Value) -> Option<Entry> {
    let properties = entry.dictionary()?;
    let length = natural(find(torrent, properties, b"length")?)?;
    let is_padding = match find(torrent, properties, b"attr") {
        Some(attr) => torrent[attr.string()?].contains(&b'p'),
        None => false,
    };
    let path = match find(torrent, properties, b"path") {
        Some(path) => Some(path_of(path)?),
        None => None,
    };
    match path {
        _ if is_padding => Some(Entry::Padding(length)),
        Some(path) => Some(Entry::File(length, path)),
        None => None,
    }
}

/// A list of strings, one or more, none of them empty.
fn path_of(path: &Value) -> Option<Vec<Range<usize>>> {
    let Kind::List(elements) = &path.kind else { return None };
    let path: Vec<Range<usize>> =
        elements.iter().map(|element| element.string().filter(|part| !part.is_empty())).collect::<Option<_>>()?;
    (!path.is_empty()).then_some(path)
}

fn natural(value: &Value) -> Option<u64> {
    value.integer()?.try_into().ok()
}

/// The v1 half's files, padding left aside, are the v2 half's: in order, with their lengths and paths.
fn same_files(torrent: &[u8], entries: &[Entry], files: &[Listed]) -> bool {
    let path = |parts: &[Range<usize>]| -> Vec<&[u8]> { parts.iter().map(|part| &torrent[part.clone()]).collect() };
    let v1 = entries.iter().filter_map(|entry| match entry {
        Entry::File(length, parts) => Some((*length, path(parts))),
        Entry::Padding(_) => None,
    });
    v1.eq(files.iter().map(|file| (file.length, path(&file.path))))
}

/// Each file, an empty one too, begins at a multiple of the piece length.
fn on_boundaries(entries: &[Entry], piece_length: u64) -> bool {
    let mut at = 0u128;
    entries.iter().all(|entry| {
        let stands_right = matches!(entry, Entry::Padding(_)) || at.is_multiple_of(piece_length as u128);
        at += entry.length() as u128;
        stands_right
    })
}

/// The bytes of all entries; none if they are more than a number of 64 bits says, which no `pieces` is enough for.
fn total(entries: &[Entry]) -> Option<u64> {
    entries.iter().try_fold(0u64, |sum, entry| sum.checked_add(entry.length()))
}

impl V1Half {
    /// Where file n begins among all bytes, and its length.
    fn file(&self, file: u64) -> Option<(u64, u64)> {
        let mut at = 0;
        let mut left = file;
        for entry in &self.entries {
            if let Entry::File(length, _) = entry {
                if left == 0 {
                    return Some((at, *length));
                }
                left -= 1;
            }
            at += entry.length();
        }
        None
    }

    /// The zeros that the hash of the piece at `at` covers behind `left` bytes of its file: up to the piece's end, or that of all bytes.
    fn zeros(&self, piece_length: u64, at: u64, left: u64) -> u64 {
        let all = total(&self.entries).expect("the halves fit");
        piece_length.min(all - at) - piece_length.min(left)
    }
}

/// Whether a torrent is hybrid, and its v1 info hash.
#[derive(Clone, Copy, Debug, PartialEq, Eq)]
pub struct Hybrid {
    pub number: u32,
    pub hybrid: u32,
    pub info_hash: Sha1,
}

/// The v1 hash of a piece, and the zeros behind it that it covers.
#[derive(Clone, Copy, Debug, PartialEq, Eq)]
pub struct V1Piece {
    pub number: u32,
    pub hash: Sha1,
    pub zeros: u64,
}

/// The part of the torrent that the v1 hashes of a file's pieces are, and the zeros behind its last piece.
#[derive(Clone, Copy, Debug, PartialEq, Eq)]
pub struct V1Part {
    pub number: u32,
    pub start: u64,
    pub size: u64,
    pub zeros: u64,
}

/// Whether a torrent is a hybrid, and its v1 info hash: SHA-1 of the `info` that the other is SHA-256 of.
pub fn torrent_hybrid(torrent: &[u8]) -> Hybrid {
    match contents(torrent).map(|all| all.half) {
        Ok(Some(half)) => Hybrid { number: DONE, hybrid: 1, info_hash: sha1(&torrent[half.info]) },
        Ok(None) => Hybrid { number: DONE, hybrid: 0, info_hash: [0; 20] },
        Err(number) => Hybrid { number, hybrid: 0, info_hash: [0; 20] },
    }
}

/// What is asked of file n of a hybrid: its half, the piece length, where the file begins and its length. 29 for no such file, then 3 for no hybrid.
fn file_of(torrent: &[u8], file: u64) -> Result<(V1Half, u64, u64, u64), u32> {
    let all = contents(torrent)?;
    if file >= all.files.len() as u64 {
        return Err(NO_SUCH_PART);
    }
    let half = all.half.ok_or(RULE_BROKEN)?;
    let (start, length) = half.file(file).expect("the halves have the same files");
    Ok((half, all.piece_length, start, length))
}

/// The v1 hash of a piece of a file.
pub fn torrent_v1_piece(torrent: &[u8], file: u64, piece: u64) -> V1Piece {
    let given = file_of(torrent, file).and_then(|(half, piece_length, start, length)| {
        if piece >= length.div_ceil(piece_length) {
            return Err(RULE_BROKEN);
        }
        let before = piece * piece_length;
        let place = half.pieces.start + 20 * ((start + before) / piece_length) as usize;
        let hash = torrent[place..place + 20].try_into().expect("20 bytes");
        Ok(V1Piece { number: DONE, hash, zeros: half.zeros(piece_length, start + before, length - before) })
    });
    given.unwrap_or_else(|number| V1Piece { number, hash: [0; 20], zeros: 0 })
}

/// The v1 hashes of a file's pieces, which stand in a row.
pub fn torrent_v1_pieces(torrent: &[u8], file: u64) -> V1Part {
    let given = file_of(torrent, file).map(|(half, piece_length, start, length)| {
        let count = length.div_ceil(piece_length);
        if count == 0 {
            return V1Part { number: DONE, start: 0, size: 0, zeros: 0 };
        }
        let before = (count - 1) * piece_length;
        V1Part {
            number: DONE,
            start: half.pieces.start as u64 + 20 * (start / piece_length),
            size: 20 * count,
            zeros: half.zeros(piece_length, start + before, length - before),
        }
    });
    given.unwrap_or_else(|number| V1Part { number, start: 0, size: 0, zeros: 0 })
}

/// Judges a piece by both halves: the v2 answer first, then 4 for data and zeros longer than a piece, then 7 for the v1 half. Marks it only
/// where both agree.
pub fn judge_hybrid_piece(store: &mut [u8], piece: u64, data: &[u8], v1: Sha1, zeros: u64) -> Answer {
    let mut marked = store.to_vec();
    let v2 = judge_piece(&mut marked, piece, data);
    if v2.number != DONE {
        return v2;
    }
    let facts = facts_of(store).expect("a store on which a piece was judged");
    if data.len() as u128 + zeros as u128 > facts.piece_length as u128 {
        return Answer::refused(WRONG_SIZE);
    }
    let mut covered = data.to_vec();
    covered.resize(data.len() + zeros as usize, 0);
    if sha1(&covered) != v1 {
        return Answer::refused(DIFFERS);
    }
    store.copy_from_slice(&marked);
    v2
}

#[cfg(test)]
mod tests {
    use super::*;
    use crate::store::{open, store_size};
    use crate::torrent::{torrent_file, torrent_list, torrent_path, torrent_read};
    use crate::tree::root_of_file;

    const MADE: &[u8] = include_bytes!("../../tests/real/hybrid.torrent");

    fn string(content: &[u8]) -> Vec<u8> {
        [content.len().to_string().as_bytes(), b":", content].concat()
    }

    /// Files `a` of 5 bytes and `b` of 7, with these keys of the v1 half: those up to `length` and those from `pieces` on.
    fn torrent(first: &[u8], last: &[u8]) -> Vec<u8> {
        let file =
            |length: &[u8], root: u8| [b"d0:d6:lengthi", length, b"e11:pieces root32:", &[root; 32], b"ee"].concat();
        let tree = [b"d1:a", &file(b"5", 1)[..], b"1:b", &file(b"7", 2), b"e"].concat();
        [b"d4:infod9:file tree", &tree[..], first, b"12:meta versioni2e", last, b"e12:piece layersdee"].concat()
    }

    /// The same with `pieces` of so many hashes.
    fn with_files(files: &[u8], pieces: usize) -> Vec<u8> {
        let pieces = string(&vec![7; 20 * pieces]);
        torrent(&[b"5:files", files].concat(), &[b"12:piece lengthi16384e6:pieces", &pieces[..]].concat())
    }

    fn number(torrent: &[u8]) -> u32 {
        torrent_hybrid(torrent).number
    }

    const A: &[u8] = b"d6:lengthi5e4:pathl1:aee";
    const B: &[u8] = b"d6:lengthi7e4:pathl1:bee";
    const PAD: &[u8] = b"d4:attr1:p6:lengthi16379e4:pathl4:.pad5:16379ee";

    fn list(entries: &[&[u8]]) -> Vec<u8> {
        [b"l", &entries.concat()[..], b"e"].concat()
    }

    #[test]
    fn one_that_libtorrent_made() {
        let half = contents(MADE).unwrap().half.unwrap();
        assert_eq!(half.entries.len(), 10);
        assert_eq!(torrent_v1_piece(MADE, 0, 4).zeros, 0);
        assert_eq!(torrent_v1_piece(MADE, 1, 0).zeros, 16379);
        assert_eq!(torrent_v1_piece(MADE, 1, 1).number, RULE_BROKEN);
        assert_eq!(torrent_v1_piece(MADE, 6, 0).number, NO_SUCH_PART);
    }

    #[test]
    fn padding_stands_between() {
        assert_eq!(number(&with_files(&list(&[A, PAD, B]), 2)), DONE);
        assert_eq!(number(&with_files(&list(&[A, PAD, B, PAD]), 3)), DONE);
        assert_eq!(number(&with_files(&list(&[A, b"d4:attr2:xp6:lengthi16379ee", B]), 2)), DONE);
    }

    #[test]
    fn each_clause_is_31() {
        let bad = [
            with_files(&list(&[A, B]), 1),
            with_files(&list(&[B, PAD, A]), 2),
            with_files(&list(&[A, PAD]), 1),
            with_files(&list(&[A, PAD, B]), 1),
            with_files(&list(&[A, PAD, B]), 3),
            with_files(&list(&[A, b"d4:attri1e6:lengthi16379e4:pathl1:xee", B]), 2),
            with_files(&list(&[A, b"d4:attr1:p6:lengthi16379e4:pathlee", B]), 2),
            with_files(&list(&[A, b"d6:lengthi16379ee", B]), 2),
            with_files(&list(&[A, b"d4:attr1:p6:lengthi-1ee", PAD, B]), 2),
            with_files(b"de", 2),
            torrent(b"6:lengthi12e", b"4:name1:a12:piece lengthi16384e6:pieces20:aaaaaaaaaaaaaaaaaaaa"),
            torrent(b"", b"12:piece lengthi16384e6:piecesi0e"),
        ];
        for (case, torrent) in bad.iter().enumerate() {
            assert_eq!(number(torrent), HALVES_DIFFER, "case {case}");
        }
    }

    #[test]
    fn a_pure_torrent_is_no_hybrid() {
        let pure = torrent(b"", b"12:piece lengthi16384e");
        assert_eq!(torrent_hybrid(&pure), Hybrid { number: DONE, hybrid: 0, info_hash: [0; 20] });
        assert_eq!(torrent_v1_pieces(&pure, 0).number, RULE_BROKEN);
        assert_eq!(torrent_v1_pieces(&pure, 2).number, NO_SUCH_PART);
    }
    #[test]
    fn every_torrent_call_gives_31() {
        let bad = with_files(&list(&[A, B]), 1);
        assert_eq!(torrent_read(&bad).number, HALVES_DIFFER);
        assert_eq!(torrent_file(&bad, 9).number, HALVES_DIFFER);
        assert_eq!(torrent_path(&bad, 9, 9).number, HALVES_DIFFER);
        assert_eq!(torrent_list(&bad, &mut []), Answer::refused(HALVES_DIFFER));
        assert_eq!(torrent_v1_piece(&bad, 9, 0).number, HALVES_DIFFER);
        assert_eq!(torrent_v1_pieces(&bad, 9).number, HALVES_DIFFER);
    }

    #[test]
    fn a_piece_is_right_by_both_halves() {
        let file = [3u8; 20_000];
        let mut store = vec![0; store_size(20_000, 32768).count as usize];
        open(&mut store, 20_000, 32768, root_of_file(&file));
        let before = store.clone();
        let v1 = sha1(&[&file[..], &[0; 12_768]].concat());
        assert_eq!(judge_hybrid_piece(&mut store, 0, &file, v1, 12_767).number, DIFFERS);
        assert_eq!(judge_hybrid_piece(&mut store, 0, &file, v1, 12_769).number, WRONG_SIZE);
        assert_eq!(judge_hybrid_piece(&mut store, 0, &file, v1, u64::MAX).number, WRONG_SIZE);
        assert_eq!(judge_hybrid_piece(&mut store, 0, &file[1..], v1, u64::MAX).number, WRONG_SIZE);
        assert_eq!(judge_hybrid_piece(&mut store, 0, &[4; 20_000], v1, u64::MAX).number, DIFFERS);
        assert_eq!(judge_hybrid_piece(&mut store, 1, &file, v1, 0).number, RULE_BROKEN);
        assert_eq!(store, before);
        assert_eq!(judge_hybrid_piece(&mut store, 0, &file, v1, 12_768).number, DONE);
        let mut by_v2 = before;
        judge_piece(&mut by_v2, 0, &file);
        assert_eq!(store, by_v2);
    }
}
