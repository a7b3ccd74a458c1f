//! Hybrid torrents: libtorrent's, and generated ones in every manner of padding.

use crate::folder::{content, Folder};
use crate::run::{kd, kd_given, kd_in};
use host_tests::hybrids::{Half, CLAUSES};
use host_tests::random::Random;
use host_tests::torrents::{dictionary, good, integer, Value};
use host_tests::truth::Truth;
use reference::hybrid::{torrent_hybrid, torrent_v1_pieces};
use reference::torrent::torrent_read;
use std::fs;

const MADE: &[u8] = include_bytes!("../../../tests/real/hybrid.torrent");
/// As libtorrent has them: hybrid.txt beside it.
const INFO_HASH: &str = "2c4d28cfee4a40d22c2da5f4031fd4edfcd7d03a25f900576abaa6626fc6b71b";
const V1_INFO_HASH: &str = "2f5fd10e9b517f7694494532ea323fdc0d97317f";

pub fn a_hybrid_is_shown() {
    let said = kd_given(MADE, &["show", "-"]);
    let lines: Vec<&str> = said.out.lines().take(3).collect();
    let expected = [
        "name          hybrid",
        &format!("info hash     {INFO_HASH}"),
        &format!("hybrid        v1 info hash {V1_INFO_HASH}"),
    ];
    assert_eq!((said.code, lines), (0, expected.to_vec()));
    let link = format!("magnet:?xt=urn:btih:{V1_INFO_HASH}&xt=urn:btmh:1220{INFO_HASH}&dn=hybrid\n");
    kd_given(MADE, &["show", "--magnet", "-"]).assert(0, &link, "");
    let object = &kd_given(MADE, &["show", "--json", "-"]).objects()[0];
    assert_eq!((&object["hybrid"], &object["v1_info_hash"]), (&true.into(), &V1_INFO_HASH.into()));
    assert_eq!(object["magnet"], link.trim_end());
}

/// The folder that libtorrent's hybrid is of, but for the name that is no text.
fn made() -> Folder {
    let folder = Folder::new();
    folder.put("hybrid.torrent", MADE);
    for (path, length) in [("firmware/image", 81920), ("firmware/note", 5), ("history", 16385), ("leer", 0)] {
        folder.put(format!("hybrid/{path}"), &content(path.as_bytes(), length));
    }
    folder
}

pub fn a_hybrid_is_judged_by_both_halves() {
    let folder = made();
    let state = |torrent: &str, path: &str| {
        let said = kd_in(&folder, &["verify", "--json", torrent, "hybrid"]);
        let objects = said.objects();
        let object = objects.iter().find(|object| object["path"] == path).unwrap();
        (object["state"].as_str().unwrap().to_string(), object["wrong"].to_string())
    };
    for path in ["firmware/image", "firmware/note", "history", "leer"] {
        assert_eq!(state("hybrid.torrent", path), ("ok".into(), "[]".into()));
    }
    // A v1 hash is changed in the torrent: the second piece of `history` is the file's last, with zeros behind it.
    let row = torrent_v1_pieces(MADE, 3);
    let mut other = MADE.to_vec();
    other[row.start as usize + 20] ^= 1;
    folder.put("other.torrent", &other);
    assert_eq!(torrent_read(&other).number, 0);
    let wrong = r#"[{"first":16384,"last":16384,"number":7}]"#;
    assert_eq!(state("other.torrent", "history"), ("wrong".into(), wrong.into()));
    assert_eq!(state("other.torrent", "firmware/image").0, "ok");
    let history = fs::read(folder.join("hybrid/history")).unwrap();
    let said = kd_in(&folder, &["cat", "other.torrent", "history", "hybrid"]);
    assert_eq!((said.code, &said.bytes[..]), (1, &history[..16384]));
    // A byte of the file: the v2 half finds it.
    folder.spoil("hybrid/firmware/image", 40_000);
    let wrong = r#"[{"first":32768,"last":49151,"number":7}]"#;
    assert_eq!(state("hybrid.torrent", "firmware/image"), ("wrong".into(), wrong.into()));
}

fn text(content: &[u8]) -> Value {
    Value::String(content.to_vec())
}

fn keyed(entries: Vec<(&[u8], Value)>) -> Value {
    dictionary(entries.into_iter().map(|(key, value)| (key.to_vec(), value)).collect())
}

const FILES: [(&str, usize); 5] = [("a", 5), ("b", 0), ("c", 40_000), ("d", 32_768), ("e", 20_000)];

/// A folder of files and a hybrid of it, with padding in any manner.
fn padded(random: &mut Random) -> Vec<u8> {
    let files = FILES.map(|(path, length)| (path, Truth::of_bytes(content(path.as_bytes(), length), 16384)));
    let file = |truth: &Truth| {
        let mut properties = vec![(&b"length"[..], integer(truth.bytes.len() as u64))];
        if !truth.bytes.is_empty() {
            properties.push((b"pieces root", text(&truth.facts.root)));
        }
        keyed(vec![(b"", keyed(properties))])
    };
    let tree = files.iter().map(|(path, truth)| (path.as_bytes(), file(truth))).collect();
    let layers = files.iter().filter(|(_, truth)| truth.bytes.len() > 16384);
    let layers = layers.map(|(_, truth)| (&truth.facts.root[..], text(&truth.layer()))).collect();
    let info = [(&b"file tree"[..], keyed(tree)), (b"meta version", integer(2)), (b"piece length", integer(16384))];
    let mut torrent = keyed(vec![(b"info", keyed(info.into())), (b"piece layers", keyed(layers))]);
    let mut half = Half::fitting(&mut torrent, random);
    half.hash(&files.iter().map(|(_, truth)| &truth.bytes[..]).collect::<Vec<_>>());
    half.put_into(&mut torrent);
    torrent.encoded()
}

/// Padding of a piece more, in two entries, none at the end: each file's hashes are found.
pub fn a_hybrid_in_any_manner() {
    let mut random = Random::new(12);
    let folder = Folder::new();
    for (path, length) in FILES {
        folder.put(path, &content(path.as_bytes(), length));
    }
    // Three where each file's hashes follow those before, and three where they don't.
    let mut verified = [0, 0];
    while verified != [3, 3] {
        let torrent = padded(&mut random);
        let (first, last) = (torrent_v1_pieces(&torrent, 0), torrent_v1_pieces(&torrent, 4));
        let manner = (last.start - first.start > 20 * 6) as usize;
        if verified[manner] == 3 {
            continue;
        }
        assert_eq!(torrent_hybrid(&torrent).hybrid, 1);
        folder.put("any.torrent", &torrent);
        kd_in(&folder, &["verify", "-q", "any.torrent"]).assert(0, "", "");
        verified[manner] += 1;
    }
}

pub fn halves_that_differ_are_refused() {
    let mut random = Random::new(31);
    for _ in 0..4 {
        let mut torrent = good(&mut random);
        let mut half = Half::fitting(&mut torrent, &mut random);
        while !random.pick(&CLAUSES).1(&mut half, &mut random) {}
        half.put_into(&mut torrent);
        let torrent = torrent.encoded();
        if torrent_read(&torrent).number == 31 {
            let said = kd_given(&torrent, &["show", "-"]);
            said.assert(3, "", "kd: standard input: refused: a hybrid whose halves differ (31)\n");
        }
    }
    assert!(kd(&["explain", "31"]).out.starts_with("31  a hybrid whose halves differ\n"));
}
