//! A small host program over the library that meets a real client on loopback: test code. What is proved is the library's
//! part, frames included; handshake and metadata exchange here promise nothing. `interop.py` runs it against libtorrent.
//!
//!   interop-host fetch TORRENT PORT     gets all hashes and all blocks from a seed, and believes or refuses each
//!   interop-host serve TORRENT FOLDER   answers one peer that knows a magnet link only; says its port first
#![forbid(unsafe_code)]

mod contents;
mod fetch;
mod peer;
mod serve;

use contents::Contents;
use std::path::Path;
use std::{env, fs, io};

fn main() -> io::Result<()> {
    let arguments: Vec<String> = env::args().skip(1).collect();
    let [command, torrent, with] = &arguments[..] else {
        panic!("usage: interop-host fetch|serve TORRENT PORT|FOLDER")
    };
    let torrent = fs::read(torrent)?;
    let contents = Contents::read(&torrent);
    match command.as_str() {
        "fetch" => fetch::run(&contents, with.parse().expect("a port")),
        "serve" => serve::run(&contents, Path::new(with)),
        _ => panic!("{command} is neither fetch nor serve"),
    }
}
