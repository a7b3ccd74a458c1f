//! Hybrid torrents: which halves fit, clause by clause; what a v1 hash covers; and pieces judged by both halves. Each is asked of the reference and
//! of the library.

use host_tests::call::{by_library, by_reference, Call, Entry, Outcome};
use host_tests::compare::{report, Comparison};
use host_tests::hybrids::{Half, CLAUSES};
use host_tests::random::Random;
use host_tests::torrents::{ask_all, dictionary, good, integer, Value};
use host_tests::truth::Truth;
use reference::hosts::torrent_info;
use reference::hybrid::{torrent_hybrid, torrent_v1_piece, torrent_v1_pieces};
use reference::number::*;
use reference::sha1::sha1;
use reference::store::size_of;
use reference::torrent::torrent_read;
use std::collections::BTreeMap;

/// Everything that can be asked about a torrent is answered alike by both.
fn assert_alike(torrent: &[u8]) {
    let mut compared = Comparison::new(&by_library);
    ask_all(torrent, &mut compared);
    assert!(compared.difference.is_none(), "{}", report(&by_library, &compared.difference.unwrap()));
}

/// Torrents that are read, without a v1 half.
fn pure(random: &mut Random) -> Value {
    loop {
        let torrent = good(random);
        if torrent_read(&torrent.encoded()).number == DONE {
            return torrent;
        }
    }
}

fn halves_that_fit() {
    let mut random = Random::new(1);
    for _ in 0..300 {
        let mut torrent = pure(&mut random);
        let before = torrent_read(&torrent.encoded());
        assert_eq!(torrent_hybrid(&torrent.encoded()).hybrid, 0);
        Half::fitting(&mut torrent, &mut random).put_into(&mut torrent);
        let torrent = torrent.encoded();
        let (read, hybrid, info) = (torrent_read(&torrent), torrent_hybrid(&torrent), torrent_info(&torrent));
        assert_eq!((read.number, read.piece_length, read.files), (DONE, before.piece_length, before.files));
        let info = &torrent[info.start as usize..][..info.size as usize];
        assert_eq!((hybrid.number, hybrid.hybrid, hybrid.info_hash), (DONE, 1, sha1(info)));
        assert_alike(&torrent);
    }
}

fn each_clause_is_31() {
    for (clause, break_it) in CLAUSES {
        let mut random = Random::new(2);
        let mut broken = 0;
        while broken < 25 {
            let mut torrent = pure(&mut random);
            let mut half = Half::fitting(&mut torrent, &mut random);
            if !break_it(&mut half, &mut random) {
                continue;
            }
            half.put_into(&mut torrent);
            let torrent = torrent.encoded();
            let shown = String::from_utf8_lossy(&torrent);
            assert_eq!(torrent_read(&torrent).number, HALVES_DIFFER, "{clause}: {shown}");
            if broken < 5 {
                assert_alike(&torrent);
            }
            broken += 1;
        }
    }
}

/// With `pieces` left out nothing else of a v1 half is looked at.
fn without_pieces_it_is_no_hybrid() {
    let mut random = Random::new(3);
    for (_, break_it) in CLAUSES {
        let mut torrent = pure(&mut random);
        let mut half = Half::fitting(&mut torrent, &mut random);
        break_it(&mut half, &mut random);
        half.leave_out_pieces();
        half.put_into(&mut torrent);
        let torrent = torrent.encoded();
        assert_eq!((torrent_hybrid(&torrent).number, torrent_hybrid(&torrent).hybrid), (DONE, 0));
        assert_eq!(torrent_v1_pieces(&torrent, 0).number, RULE_BROKEN);
        assert_alike(&torrent);
    }
}

/// The files of a folder with their bytes, and a hybrid of them with true hashes.
struct Made {
    files: Vec<Truth>,
    torrent: Vec<u8>,
}

fn text(content: &[u8]) -> Value {
    Value::String(content.to_vec())
}

fn keyed(entries: Vec<(&[u8], Value)>) -> Value {
    dictionary(entries.into_iter().map(|(key, value)| (key.to_vec(), value)).collect())
}

/// Folders `a` to `c`, the last file at the top; or one file alone.
fn made(lengths: &[usize], piece_length: u64, random: &mut Random) -> Made {
    let files: Vec<Truth> = lengths.iter().map(|length| Truth::of_bytes(random.bytes(*length), piece_length)).collect();
    let mut folders: BTreeMap<Vec<u8>, BTreeMap<Vec<u8>, Value>> = BTreeMap::new();
    let mut layers = BTreeMap::new();
    let mut last = None;
    for (number, file) in files.iter().enumerate() {
        let mut properties = vec![(&b"length"[..], integer(file.bytes.len() as u64))];
        if !file.bytes.is_empty() {
            properties.push((b"pieces root", text(&file.facts.root)));
        }
        if file.bytes.len() as u64 > piece_length {
            layers.insert(file.facts.root.to_vec(), text(&file.layer()));
        }
        let node = keyed(vec![(b"", keyed(properties))]);
        if number + 1 == files.len() {
            last = Some(node);
        } else {
            let folder = vec![b'a' + (3 * number / files.len()) as u8];
            folders.entry(folder).or_default().insert(format!("{number:02}").into_bytes(), node);
        }
    }
    let mut tree: BTreeMap<Vec<u8>, Value> =
        folders.into_iter().map(|(name, folder)| (name, dictionary(folder))).collect();
    tree.insert(b"z".to_vec(), last.expect("a file"));
    let info = keyed(vec![
        (b"file tree", dictionary(tree)),
        (b"meta version", integer(2)),
        (b"name", text(b"z")),
        (b"piece length", integer(piece_length)),
    ]);
    let mut torrent = keyed(vec![(b"info", info), (b"piece layers", dictionary(layers))]);
    let mut half = Half::fitting(&mut torrent, random);
    half.hash(&files.iter().map(|file| &file.bytes[..]).collect::<Vec<_>>());
    half.put_into(&mut torrent);
    Made { files, torrent: torrent.encoded() }
}

const FOLDERS: [(&[usize], u64); 7] = [
    (&[50_000], 16384),
    (&[40_000], 65536),
    (&[0], 16384),
    (&[5, 0, 16384, 40_000, 0, 1], 16384),
    (&[16384, 32768, 16384], 16384),
    (&[0, 0, 70_000, 3, 65536, 0], 65536),
    (&[1, 2, 3, 4, 5, 6, 7, 8, 9, 10, 11, 0], 32768),
];

/// Each v1 hash is the SHA-1 of the file's own piece and of so many zeros, in every manner of padding.
fn a_v1_hash_covers_the_zeros_behind_its_piece() {
    let mut random = Random::new(4);
    let mut with_zeros = 0;
    for (lengths, piece_length) in FOLDERS.repeat(6) {
        let made = made(lengths, piece_length, &mut random);
        assert_eq!(torrent_hybrid(&made.torrent).hybrid, 1);
        for (number, file) in made.files.iter().enumerate() {
            let row = torrent_v1_pieces(&made.torrent, number as u64);
            let pieces: Vec<&[u8]> = file.bytes.chunks(piece_length as usize).collect();
            assert_eq!((row.number, row.size), (DONE, 20 * pieces.len() as u64));
            for (piece, bytes) in pieces.iter().enumerate() {
                let v1 = torrent_v1_piece(&made.torrent, number as u64, piece as u64);
                assert_eq!(v1.hash, sha1(&[bytes, &vec![0; v1.zeros as usize][..]].concat()));
                assert_eq!(made.torrent[row.start as usize + 20 * piece..][..20], v1.hash);
                assert_eq!(v1.zeros, if piece + 1 == pieces.len() { row.zeros } else { 0 });
                with_zeros += (v1.zeros > 0) as u64;
            }
            let past = torrent_v1_piece(&made.torrent, number as u64, pieces.len() as u64);
            assert_eq!((past.number, past.zeros), (RULE_BROKEN, 0));
        }
        assert_alike(&made.torrent);
    }
    assert!(with_zeros > 50, "{with_zeros}");
}

/// What the reference leaves; the library must leave the same, in every byte.
fn by_both(call: &Call) -> Outcome {
    let outcome = by_reference(call);
    assert_eq!(outcome, by_library(call));
    outcome
}

/// A store of a file with its layer loaded.
fn opened(file: &Truth) -> Vec<u8> {
    let facts = &file.facts;
    let memory = vec![0; size_of(facts) as usize];
    let open =
        Call { root: facts.root, ..Call::new(Entry::Open).on(&memory).numbers(facts.length, facts.piece_length) };
    let store = by_both(&open).store;
    match facts.has_piece_layer() {
        true => by_both(&Call::new(Entry::LoadLayer).on(&store).input(file.layer())).store,
        false => store,
    }
}

/// With a bit changed in the data, in the v1 hash, in a held hash, or another count of zeros: refused, and no byte of the store changes.
fn a_piece_is_right_only_by_both_halves() {
    let mut random = Random::new(5);
    for (lengths, piece_length) in FOLDERS {
        let made = made(lengths, piece_length, &mut random);
        for (number, file) in made.files.iter().enumerate().filter(|(_, file)| !file.bytes.is_empty()) {
            let store = opened(file);
            for (piece, data) in file.bytes.chunks(piece_length as usize).enumerate() {
                let v1 = torrent_v1_piece(&made.torrent, number as u64, piece as u64);
                let judge = |data: &[u8], hash, zeros| {
                    let call = Call::new(Entry::JudgeHybridPiece).on(&store).input(data.to_vec());
                    let outcome = by_both(&call.numbers(piece as u64, zeros).v1(hash));
                    assert!(outcome.given.number() == DONE || outcome.store == store);
                    outcome
                };
                let by_v2 =
                    by_both(&Call::new(Entry::JudgePiece).on(&store).numbers(piece as u64, 0).input(data.to_vec()));
                assert_eq!(judge(data, v1.hash, v1.zeros), Outcome { name: Vec::new(), ..by_v2 });
                let mut damaged = data.to_vec();
                damaged[random.below(data.len() as u64) as usize] ^= 1 << random.below(8);
                let covered = [&damaged[..], &vec![0; v1.zeros as usize]].concat();
                assert_eq!(judge(&damaged, v1.hash, v1.zeros).given.number(), DIFFERS);
                assert_eq!(
                    judge(&damaged, sha1(&covered), v1.zeros).given.number(),
                    DIFFERS,
                    "the v1 half alone agrees"
                );
                let mut other = v1.hash;
                other[random.below(20) as usize] ^= 1 << random.below(8);
                assert_eq!(judge(data, other, v1.zeros).given.number(), DIFFERS, "the v2 half alone agrees");
                let left = piece_length - data.len() as u64;
                for zeros in [v1.zeros.wrapping_sub(1), v1.zeros + 1, left + 1, u64::MAX] {
                    let number = if zeros > left { WRONG_SIZE } else { DIFFERS };
                    assert_eq!(judge(data, v1.hash, zeros).given.number(), number, "{zeros} zeros");
                }
                assert_eq!(judge(&damaged, v1.hash, u64::MAX).given.number(), DIFFERS, "the v2 answer comes first");
                assert_eq!(judge(&data[1..], v1.hash, u64::MAX).given.number(), WRONG_SIZE);
            }
        }
    }
}

/// The store does not know of a v1 half: a block and a piece are judged, and marked, by v2 alone.
fn without_the_v1_hash_the_v2_half_decides() {
    let mut random = Random::new(6);
    let made = made(&[5, 40_000], 16384, &mut random);
    let (store, data) = (opened(&made.files[1]), made.files[1].bytes[..16384].to_vec());
    let call = Call::new(Entry::JudgeHybridPiece).on(&store).input(data.clone()).v1([0; 20]);
    assert_eq!(by_both(&call).given.number(), DIFFERS);
    let judged = by_both(&Call::new(Entry::JudgePiece).on(&store).input(data));
    assert_eq!(judged.given.number(), DONE);
    assert_eq!(by_both(&Call::new(Entry::Marked).on(&judged.store)).given.count(), 1);
}

/// 31 comes after 28, and before 29 and the list's 11.
fn number_31_comes_between_28_and_29() {
    let mut random = Random::new(7);
    let made = made(&[5, 40_000], 16384, &mut random);
    let mut torrent = made.torrent;
    let place = |torrent: &[u8], key: &[u8]| torrent.windows(key.len()).position(|part| part == key).expect("a key");
    let pieces = place(&torrent, b"6:pieces");
    torrent[pieces + 2] = b'P';
    assert_eq!(torrent_read(&torrent).number, NOT_STRICT, "`Pieces` stands out of order");
    torrent[pieces + 2] = b'q';
    assert_eq!(torrent_hybrid(&torrent).hybrid, 0, "`qieces` is unknown");
    torrent[pieces + 2] = b'p';
    let files = place(&torrent, b"5:files");
    let length = files + place(&torrent[files..], b"6:lengthi5e");
    torrent[length + 9] = b'6';
    for entry in [Entry::TorrentFile, Entry::TorrentPath, Entry::TorrentV1Piece, Entry::TorrentV1Pieces] {
        let call = Call::new(entry).input(torrent.clone()).numbers(u64::MAX, u64::MAX);
        assert_eq!(by_both(&call).given.number(), HALVES_DIFFER);
    }
    assert_eq!(by_both(&Call::new(Entry::TorrentList).input(torrent.clone())).given.number(), HALVES_DIFFER);
    // The layer's last byte.
    let end = torrent.len() - 3;
    torrent[end] ^= 1;
    assert_eq!(torrent_read(&torrent).number, LAYER_DIFFERS);
    assert_alike(&torrent);
}

host_tests::tests! {
    halves_that_fit,
    each_clause_is_31,
    without_pieces_it_is_no_hybrid,
    a_v1_hash_covers_the_zeros_behind_its_piece,
    a_piece_is_right_only_by_both_halves,
    without_the_v1_hash_the_v2_half_decides,
    number_31_comes_between_28_and_29,
}
