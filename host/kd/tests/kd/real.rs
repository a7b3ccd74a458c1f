//! The torrents that libtorrent made, host/tests/real, with what it says of each: v2 only and hybrid, names that are no text.

use crate::folder::{content, Folder};
use crate::run::kd;
use std::ffi::OsStr;
use std::fs;
use std::os::unix::ffi::OsStrExt;

const NAMES: [&str; 4] = ["single", "several", "hybrid", "twins"];

struct Line {
    length: u64,
    root: String,
    path: Vec<u8>,
}

fn place(name: &str, ending: &str) -> String {
    format!("{}/../tests/real/{name}.{ending}", env!("CARGO_MANIFEST_DIR"))
}

fn bytes(hex: &str) -> Vec<u8> {
    (0..hex.len() / 2).map(|i| u8::from_str_radix(&hex[2 * i..2 * i + 2], 16).unwrap()).collect()
}

/// The info hash, that of v1 (`-` if there is none), and each file.
fn said(name: &str) -> (String, String, Vec<Line>) {
    let text = fs::read_to_string(place(name, "txt")).unwrap();
    let line = |line: &str| {
        let words: Vec<_> = line.split(' ').collect();
        let path = words[5].split('/').map(bytes).collect::<Vec<_>>().join(&b'/');
        Line { length: words[0].parse().unwrap(), root: words[1].into(), path }
    };
    let mut lines = text.lines();
    let mut hash = || lines.next().unwrap().to_string();
    (hash(), hash(), text.lines().skip(3).map(line).collect())
}

pub fn real_torrents_are_shown() {
    for name in NAMES {
        let (info_hash, v1, lines) = said(name);
        let object = &kd(&["show", "--json", &place(name, "torrent")]).objects()[0];
        assert_eq!(object["info_hash"], info_hash);
        assert_eq!((object["hybrid"] == true, object["v1_info_hash"].as_str().unwrap_or("-")), (v1 != "-", &v1[..]));
        for (file, line) in object["files"].as_array().unwrap().iter().zip(&lines) {
            assert_eq!((&file["length"], &file["root"]), (&line.length.into(), &line.root[..].into()));
            let hex = file["path_hex"].as_str().map(bytes);
            assert_eq!(hex.unwrap_or_else(|| file["path"].as_str().unwrap().into()), line.path);
        }
        assert_eq!(object["files"].as_array().unwrap().len(), lines.len());
    }
}

pub fn real_torrents_are_verified() {
    for name in NAMES {
        let folder = Folder::new();
        for line in said(name).2 {
            folder.put(OsStr::from_bytes(&line.path), &content(&line.path, line.length as usize));
        }
        kd(&["verify", "-q", &place(name, "torrent"), &folder.text("")]).assert(0, "", "");
    }
}
