//! `kd show`: what a torrent says.

use crate::end::{Failure, Verdict};
use crate::json::{Name, Path};
use crate::out;
use crate::torrent::{Entry, Meta};
use readable::{count, hex, on_terminal, size};
use serde::Serialize;
use std::path::PathBuf;

/// Show what a v2 or hybrid torrent says: name, info hashes, piece length, files
#[derive(clap::Args)]
pub struct Args {
    /// Whole hashes
    #[arg(short, long)]
    long: bool,
    /// The magnet link alone
    #[arg(long, conflicts_with = "json")]
    magnet: bool,
    /// One JSON object
    #[arg(long)]
    json: bool,
    /// The torrent, or - for standard input
    torrent: PathBuf,
}

pub fn run(args: &Args) -> Result<Verdict, Failure> {
    let meta = Meta::read(&args.torrent)?;
    if args.json {
        out::object(&Object::of(&meta))?;
    } else if args.magnet {
        out::line(&magnet(&meta))?;
    } else {
        page(&meta, args.long)?;
    }
    Ok(Verdict::Right)
}

fn page(meta: &Meta, long: bool) -> Result<(), Failure> {
    if let Some(name) = &meta.name {
        out::line(&format!("name          {}", on_terminal(name)))?;
    }
    out::line(&format!("info hash     {}", hex(&meta.info_hash)))?;
    if let Some(v1) = &meta.v1_info_hash {
        out::line(&format!("hybrid        v1 info hash {}", hex(v1)))?;
    }
    out::line(&format!("piece length  {}", size(meta.piece_length)))?;
    let (files, pieces) = (meta.files.len() as u64, count(meta.pieces(), "piece"));
    out::line(&format!("files         {files}, {} in {pieces}\n", size(meta.length())))?;
    tree(&meta.files, 0, if long { 64 } else { 12 })
}

/// The files as a tree: they stand in its order. A folder has the size of all that is below it, and no hash.
fn tree(files: &[Entry], depth: usize, digits: usize) -> Result<(), Failure> {
    for group in files.chunk_by(|one, next| one.path[depth] == next.path[depth]) {
        let is_folder = group[0].path.len() > depth + 1;
        let hash = if is_folder { String::new() } else { hex(&group[0].root)[..digits].into() };
        let bytes = size(group.iter().map(|file| file.length).sum());
        let slash = if is_folder { "/" } else { "" };
        let name = on_terminal(&group[0].path[depth]);
        out::line(&format!("{bytes:>10}  {hash:<digits$}  {:1$}{name}{slash}", "", 2 * depth))?;
        if is_folder {
            tree(group, depth + 1, digits)?;
        }
    }
    Ok(())
}

fn magnet(meta: &Meta) -> String {
    let v1 = meta.v1_info_hash.map_or(String::new(), |v1| format!("xt=urn:btih:{}&", hex(&v1)));
    // 12 20: a SHA-256 of 32 bytes, as multihashes have it.
    let link = format!("magnet:?{v1}xt=urn:btmh:1220{}", hex(&meta.info_hash));
    match &meta.name {
        Some(name) => format!("{link}&dn={}", percent(name)),
        None => link,
    }
}

fn percent(name: &[u8]) -> String {
    let plain = |byte: u8| byte.is_ascii_alphanumeric() || b"-._~".contains(&byte);
    name.iter().map(|byte| if plain(*byte) { char::from(*byte).into() } else { format!("%{byte:02X}") }).collect()
}

#[derive(Serialize)]
struct Object {
    #[serde(flatten)]
    name: Option<Name>,
    info_hash: String,
    hybrid: bool,
    #[serde(skip_serializing_if = "Option::is_none")]
    v1_info_hash: Option<String>,
    magnet: String,
    piece_length: u64,
    bytes: u64,
    pieces: u64,
    files: Vec<File>,
}

#[derive(Serialize)]
struct File {
    #[serde(flatten)]
    path: Path,
    length: u64,
    root: String,
    pieces: u64,
}

impl Object {
    fn of(meta: &Meta) -> Object {
        let file = |file: &Entry| File {
            path: Path::new(&file.joined()),
            length: file.length,
            root: hex(&file.root),
            pieces: file.pieces(meta.piece_length),
        };
        Object {
            name: meta.name.as_deref().map(Name::new),
            info_hash: hex(&meta.info_hash),
            hybrid: meta.v1_info_hash.is_some(),
            v1_info_hash: meta.v1_info_hash.map(|v1| hex(&v1)),
            magnet: magnet(meta),
            piece_length: meta.piece_length,
            bytes: meta.length(),
            pieces: meta.pieces(),
            files: meta.files.iter().map(file).collect(),
        }
    }
}
