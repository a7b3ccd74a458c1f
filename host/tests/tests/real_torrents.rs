//! Torrents made by libtorrent, kept in `real/` with a text of what libtorrent says of each (`make.py` has its form): the
//! reference has to say the same, trees included, and the library too. KD_TORRENTS names another
//! folder of such torrents; in it, `bent` has hybrids with one thing bent, each with the number that it is answered with. Each is written again of its own files: KD_WRITTEN names a folder for what the library wrote, with
//! a text of the same form beside it.

use host_tests::call::{by_library, Call, Entry};
use host_tests::compare::{report, Comparison};
use host_tests::lists::{read_back, written_down, Placing};
use host_tests::torrents::ask_all;
use host_tests::truth::Truth;
use reference::bencode::{find, read};
use reference::hybrid::{torrent_hybrid, torrent_v1_piece, torrent_v1_pieces, V1Part};
use reference::limits::LARGEST_TORRENT;
use reference::store::size_of;
use reference::torrent::{contents, torrent_read};
use reference::tree::root_of_file;
use std::ops::Range;
use std::path::{Path, PathBuf};
use std::{env, fs};

/// Every torrent of the folder with its text.
fn torrents() -> Vec<(PathBuf, Vec<u8>, String)> {
    let kept = Path::new(env!("CARGO_MANIFEST_DIR")).join("real");
    let folder = env::var("KD_TORRENTS").map_or(kept, PathBuf::from);
    let paths = fs::read_dir(folder).unwrap().map(|entry| entry.unwrap().path());
    let torrents = paths.filter(|path| path.extension().is_some_and(|extension| extension == "torrent"));
    let found: Vec<_> = torrents
        .map(|path| {
            let (bytes, text) = (fs::read(&path).unwrap(), fs::read_to_string(path.with_extension("txt")).unwrap());
            (path, bytes, text)
        })
        .collect();
    assert!(found.len() >= 3);
    found
}

fn hex(bytes: &[u8]) -> String {
    bytes.iter().map(|byte| format!("{byte:02x}")).collect()
}

/// What the reference says of a torrent, as a text of the same form.
fn text_of(torrent: &[u8]) -> String {
    let all = contents(torrent).expect("a good torrent");
    let part = |part: &Range<usize>| hex(&torrent[part.clone()]);
    let hybrid = torrent_hybrid(torrent);
    let v1_info_hash = if hybrid.hybrid == 1 { hex(&hybrid.info_hash) } else { "-".to_string() };
    let mut text = format!("{}\n{v1_info_hash}\n{}\n", hex(&all.info_hash), all.piece_length);
    for (number, file) in all.files.iter().enumerate() {
        let layer = if file.layer.is_empty() { "-".to_string() } else { part(&file.layer) };
        let path: Vec<String> = file.path.iter().map(part).collect();
        let V1Part { start, size, zeros, .. } = torrent_v1_pieces(torrent, number as u64);
        let v1 = if size == 0 { "-".to_string() } else { part(&(start as usize..(start + size) as usize)) };
        text += &format!("{} {} {layer} {v1} {zeros} {}\n", file.length, hex(&file.root), path.join("/"));
    }
    text
}

/// The hybrids with one thing bent, each with its number; none where the folder has none.
fn bent() -> Vec<(PathBuf, Vec<u8>, u32)> {
    let Ok(folder) = env::var("KD_TORRENTS") else { return Vec::new() };
    let entries = fs::read_dir(Path::new(&folder).join("bent")).expect("bent ones");
    let paths = entries.map(|entry| entry.unwrap().path());
    let torrents = paths.filter(|path| path.extension().is_some_and(|extension| extension == "torrent"));
    torrents
        .map(|path| {
            let number = fs::read_to_string(path.with_extension("txt")).unwrap().trim().parse().unwrap();
            (path.clone(), fs::read(path).unwrap(), number)
        })
        .collect()
}

fn hybrids_with_one_thing_bent() {
    let mut compared = Comparison::new(&by_library);
    for (path, torrent, number) in bent() {
        assert_eq!(torrent_read(&torrent).number, number, "{}", path.display());
        ask_all(&torrent, &mut compared);
    }
    assert!(compared.difference.is_none(), "{}", report(&by_library, &compared.difference.unwrap()));
}

/// Each v1 hash of libtorrent's is the SHA-1 of the file's piece and of the zeros behind it, and each piece is right by both halves.
fn v1_hashes_cover_what_is_said() {
    let mut compared = Comparison::new(&by_library);
    for (path, torrent, _) in torrents() {
        let all = contents(&torrent).unwrap();
        if all.half.is_none() {
            continue;
        }
        for (number, file) in all.files.iter().enumerate().filter(|(_, file)| file.length > 0) {
            let parts: Vec<&[u8]> = file.path.iter().map(|part| &torrent[part.clone()]).collect();
            let whole = Truth::of_bytes(content(&parts.join(&b'/'), file.length), all.piece_length);
            let memory = vec![0; size_of(&whole.facts) as usize];
            let open = Call { root: file.root, ..Call::new(Entry::Open) };
            let mut store = compared.ask(&open.on(&memory).numbers(file.length, all.piece_length)).store;
            if file.length > all.piece_length {
                let layer = torrent[file.layer.clone()].to_vec();
                store = compared.ask(&Call::new(Entry::LoadLayer).on(&store).input(layer)).store;
            }
            for (piece, data) in whole.bytes.chunks(all.piece_length as usize).enumerate() {
                let v1 = torrent_v1_piece(&torrent, number as u64, piece as u64);
                let judge = Call::new(Entry::JudgeHybridPiece).on(&store).input(data.to_vec());
                let judged = compared.ask(&judge.numbers(piece as u64, v1.zeros).v1(v1.hash));
                assert_eq!((v1.number, judged.given.number()), (0, 0), "{}: {parts:?} {piece}", path.display());
                store = judged.store;
            }
        }
    }
    assert!(compared.difference.is_none(), "{}", report(&by_library, &compared.difference.unwrap()));
}

fn the_reference_says_what_libtorrent_says() {
    for (path, torrent, text) in torrents() {
        assert_eq!(text_of(&torrent), text, "{}", path.display());
    }
}

fn the_library_says_what_the_reference_says() {
    let mut compared = Comparison::new(&by_library);
    for (_, torrent, _) in torrents() {
        ask_all(&torrent, &mut compared);
    }
    assert!(compared.difference.is_none(), "{}", report(&by_library, &compared.difference.unwrap()));
}

/// The name in a torrent's `info`, and how many keys that has.
fn name_and_keys(torrent: &[u8]) -> (Vec<u8>, usize) {
    let outer = read(torrent).unwrap();
    let info = find(torrent, outer.dictionary().unwrap(), b"info").unwrap().dictionary().unwrap();
    (torrent[find(torrent, info, b"name").unwrap().string().unwrap()].to_vec(), info.len())
}

/// Each torrent, written again by the library of its own files and name, in the opposite order: the reference writes the same
/// bytes; the same files are read back; and where `info` has the writer's four keys alone, it has the same info hash.
fn written_again() {
    let mut compared = Comparison::new(&by_library);
    let mut with_the_same_hash = 0;
    for (path, torrent, _) in torrents() {
        let (all, mut files) = (contents(&torrent).unwrap(), read_back(&torrent).unwrap());
        let (name, keys) = name_and_keys(&torrent);
        files.reverse();
        let call = written_down(&files, Placing::Shared).call(all.piece_length, &name, LARGEST_TORRENT);
        let (expected, outcome) = (compared.ask(&call), by_library(&call));
        assert_eq!((outcome.given.number(), outcome.given), (0, expected.given), "{}", path.display());
        let written = &outcome.out[..outcome.given.count() as usize];
        assert_eq!(read_back(written), read_back(&torrent), "{}", path.display());
        if keys == 4 {
            assert_eq!(contents(written).unwrap().info_hash, all.info_hash, "{}", path.display());
            with_the_same_hash += 1;
        }
        if let Ok(folder) = env::var("KD_WRITTEN") {
            let place = Path::new(&folder).join(path.file_name().unwrap());
            fs::write(&place, written).unwrap();
            fs::write(place.with_extension("txt"), text_of(written)).unwrap();
        }
    }
    assert!(compared.difference.is_none(), "{}", report(&by_library, &compared.difference.unwrap()));
    assert!(with_the_same_hash >= 3, "{with_the_same_hash}");
}

/// The bytes that `make.py` put into a file.
fn content(path: &[u8], length: u64) -> Vec<u8> {
    let seed: u64 = path.iter().map(|byte| u64::from(*byte)).sum();
    (0..length).map(|i| (i * 7 + i / 251 + seed) as u8).collect()
}

fn trees_have_the_roots_that_libtorrent_gives() {
    for (_, torrent, _) in torrents() {
        for file in contents(&torrent).unwrap().files.iter().filter(|file| file.length > 0) {
            let path: Vec<&[u8]> = file.path.iter().map(|part| &torrent[part.clone()]).collect();
            assert_eq!(root_of_file(&content(&path.join(&b'/'), file.length)), file.root, "{path:?}");
        }
    }
}

host_tests::tests! {
    the_reference_says_what_libtorrent_says,
    the_library_says_what_the_reference_says,
    written_again,
    trees_have_the_roots_that_libtorrent_gives,
    hybrids_with_one_thing_bent,
    v1_hashes_cover_what_is_said,
}
