//! `kd make`: the torrent of a file or a folder, hashed as it is read.

mod walk;

use crate::end::{path_shown, Failure, Verdict};
use crate::hashed::read_all;
use crate::progress::Progress;
use crate::{json, out, place, whole};
use kombudeva::limits::{HASH, LARGEST_PIECE_LENGTH, LARGEST_TORRENT, SMALLEST_PIECE_LENGTH};
use kombudeva::{store_size, History, Torrent, TorrentBuilder};
use readable::{count, hex, read_size, size};
use serde::Serialize;
use std::ffi::{OsStr, OsString};
use std::io;
use std::os::unix::ffi::OsStrExt;
use std::path::{Path, PathBuf};
use walk::Source;

/// Write the v2 torrent of a file or a folder
#[derive(clap::Args)]
pub struct Args {
    /// Say only what is wrong, and show no progress
    #[arg(short, long)]
    quiet: bool,
    /// One JSON object
    #[arg(long)]
    json: bool,
    /// Where to write: NAME.torrent by default, - for standard output
    #[arg(short, long, value_name = "TORRENT")]
    output: Option<PathBuf>,
    /// The torrent's name, by default the source's
    #[arg(short, long)]
    name: Option<OsString>,
    /// Such as 64KiB: a power of two from 16KiB to 16MiB
    #[arg(short = 's', long, value_name = "SIZE", value_parser = read_size)]
    piece_length: Option<u64>,
    /// A file, a folder, or - for standard input
    source: PathBuf,
}

pub fn run(args: &Args) -> Result<Verdict, Failure> {
    if args.json && args.output.as_deref() == Some(Path::new("-")) {
        return Err(Failure::usage("torrent and object can't both be standard output"));
    }
    let name = name(args)?;
    let output = args.output.clone().unwrap_or_else(|| default_output(&name));
    let torrent = if args.source == Path::new("-") { of_stream(args, &name)? } else { of_files(args, &name, &output)? };
    if output == Path::new("-") {
        out::bytes(&torrent.bytes)?;
        return Ok(Verdict::Right);
    }
    whole::write(&output, &torrent.bytes).map_err(|error| Failure::unreadable(&output, &error))?;
    if args.json {
        out::object(&Object::of(&torrent, &output)?)?;
    } else if !args.quiet {
        let (files, pieces) = (count(torrent.files, "file"), size(torrent.piece_length));
        out::line(&format!("{}: {files}, {}, pieces of {pieces}", path_shown(&output), size(torrent.length)))?;
    }
    Ok(Verdict::Right)
}

#[derive(Serialize)]
struct Object {
    #[serde(flatten)]
    path: json::Path,
    info_hash: String,
    piece_length: u64,
    bytes: u64,
    files: u64,
}

impl Object {
    fn of(made: &Made, output: &Path) -> Result<Object, Failure> {
        let read = Torrent::read(&made.bytes).map_err(|refusal| Failure::refused(output, refusal))?;
        let path = json::Path::new(output.as_os_str().as_bytes());
        let (info_hash, piece_length) = (hex(&read.info_hash), read.piece_length);
        Ok(Object { path, info_hash, piece_length, bytes: made.length, files: read.files })
    }
}

struct Made {
    bytes: Vec<u8>,
    files: u64,
    length: u64,
    piece_length: u64,
}

fn name(args: &Args) -> Result<OsString, Failure> {
    if let Some(name) = &args.name {
        return Ok(name.clone());
    }
    if args.source == Path::new("-") {
        return Err(Failure::usage("standard input has no name: give one with --name"));
    }
    // `.` has a name only where it is written out.
    let whole = || args.source.canonicalize().map_err(|error| Failure::unreadable(&args.source, &error));
    let source = if args.source.file_name().is_some() { args.source.clone() } else { whole()? };
    let nameless = || Failure::usage("the source has no name: give one with --name");
    source.file_name().map(OsStr::to_os_string).ok_or_else(nameless)
}

fn default_output(name: &OsStr) -> PathBuf {
    let mut output = name.to_os_string();
    output.push(".torrent");
    PathBuf::from(output)
}

fn of_files(args: &Args, name: &OsStr, output: &Path) -> Result<Made, Failure> {
    let sources = walk::find(&args.source, name, output, args.quiet)?;
    let length = sources.iter().map(|source| source.length).sum();
    let piece_length = args.piece_length.unwrap_or_else(|| usual_piece_length(&sources));
    for source in sources.iter().filter(|source| source.length > 0) {
        store_size(source.length, piece_length).map_err(|refusal| Failure::refused(&source.path, refusal))?;
    }
    if layers_size(&sources, piece_length) > LARGEST_TORRENT as u64 {
        return Err(Failure::usage(format!("pieces of {} make a torrent above 1 MiB", size(piece_length))));
    }
    let mut builder = TorrentBuilder::new(piece_length, name.as_bytes());
    let progress = Progress::new("make", Some(length), args.quiet);
    for source in &sources {
        add(&mut builder, source, piece_length, &progress)?;
    }
    let bytes = builder.write().map_err(|refusal| Failure::refused(&args.source, refusal))?;
    Ok(Made { bytes, files: sources.len() as u64, length, piece_length })
}

fn add(builder: &mut TorrentBuilder, source: &Source, piece_length: u64, progress: &Progress) -> Result<(), Failure> {
    let (mut file, _) = place::open(&source.path).map_err(|error| Failure::unreadable(&source.path, &error))?;
    let mut layer = vec![0; HASH * source.length.div_ceil(piece_length) as usize];
    let refused = |refusal| Failure::refused(&source.path, refusal);
    let mut history = History::begin(piece_length, &mut layer).map_err(refused)?;
    // Not a byte more than it had when it was found: a log may grow meanwhile.
    read_all(&mut io::Read::take(&mut file, source.length), &source.path, &mut history, progress)?;
    let logged = history.end().map_err(refused)?;
    if logged.length < source.length {
        return Err(Failure::Unable(format!("{}: it became shorter while it was read", path_shown(&source.path))));
    }
    builder.add_logged(&source.elements, &logged);
    Ok(())
}

/// A stream's length is not known before its end: its pieces are large enough for any.
fn of_stream(args: &Args, name: &OsStr) -> Result<Made, Failure> {
    let piece_length = args.piece_length.unwrap_or(1 << 20);
    let refused = |refusal| Failure::refused(&args.source, refusal);
    // No torrent has a longer layer.
    let mut layer = vec![0; LARGEST_TORRENT];
    let mut history = History::begin(piece_length, &mut layer).map_err(refused)?;
    let progress = Progress::new("make", None, args.quiet);
    read_all(&mut io::stdin(), &args.source, &mut history, &progress)?;
    let logged = history.end().map_err(refused)?;
    let mut builder = TorrentBuilder::new(piece_length, name.as_bytes());
    builder.add_logged([name.as_bytes()], &logged);
    let bytes = builder.write().map_err(refused)?;
    Ok(Made { bytes, files: 1, length: logged.length, piece_length })
}

/// The least from 64 KiB on with which no file has more than 1024 pieces, and all layers together leave half of a torrent free.
fn usual_piece_length(sources: &[Source]) -> u64 {
    let longest = sources.iter().map(|source| source.length).max().unwrap_or(0);
    let fits = |piece_length: u64| {
        longest.div_ceil(piece_length) <= 1024 && layers_size(sources, piece_length) <= LARGEST_TORRENT as u64 / 2
    };
    let mut piece_length = 4 * SMALLEST_PIECE_LENGTH;
    while piece_length < LARGEST_PIECE_LENGTH && !fits(piece_length) {
        piece_length *= 2;
    }
    piece_length
}

/// The bytes of all piece layers, one for each file longer than a piece.
fn layers_size(sources: &[Source], piece_length: u64) -> u64 {
    let lengths = sources.iter().map(|source| source.length).filter(|length| *length > piece_length);
    lengths.map(|length| length.div_ceil(piece_length) * HASH as u64).sum()
}

#[cfg(test)]
mod tests {
    use super::*;

    fn of_lengths(lengths: &[u64]) -> Vec<Source> {
        lengths.iter().map(|length| Source { path: PathBuf::new(), elements: Vec::new(), length: *length }).collect()
    }

    #[test]
    fn pieces_grow_with_the_longest_file_and_with_all_of_them() {
        assert_eq!(usual_piece_length(&[]), 64 << 10);
        assert_eq!(usual_piece_length(&of_lengths(&[64 << 20])), 64 << 10);
        assert_eq!(usual_piece_length(&of_lengths(&[(64 << 20) + 1])), 128 << 10);
        assert_eq!(usual_piece_length(&of_lengths(&[64 << 20; 32])), 128 << 10);
        assert_eq!(usual_piece_length(&of_lengths(&[16 << 30; 100])), 16 << 20);
    }
}
