//! `kd cat`: the bytes of a file that may be believed, and no others.

use crate::end::{path_shown, Failure, Verdict};
use crate::pieces::Pieces;
use crate::torrent::{Entry, Meta};
use crate::{out, place};
use readable::on_terminal;
use std::ffi::OsString;
use std::fs::File;
use std::io::{self, ErrorKind, Read};
use std::os::unix::ffi::OsStrExt;
use std::path::{Path, PathBuf};

/// Write a file of a torrent to standard output as far as it may be believed, and no byte more
#[derive(clap::Args)]
pub struct Args {
    /// The torrent, or - for standard input
    torrent: PathBuf,
    /// The file's path, as kd show has it
    file: OsString,
    /// The folder, the file itself, or - for standard input
    place: PathBuf,
}

pub fn run(args: &Args) -> Result<Verdict, Failure> {
    if args.torrent == Path::new("-") && args.place == Path::new("-") {
        return Err(Failure::usage("torrent and file can't both be standard input"));
    }
    let meta = Meta::to_judge(&args.torrent)?;
    let Some(file) = meta.files.iter().find(|file| file.joined() == args.file.as_bytes()) else {
        let name = on_terminal(args.file.as_bytes());
        return Err(Failure::usage(format!("the torrent has no file {name}; kd show lists what it has")));
    };
    let path =
        if args.place.is_dir() { place::below(&place::folder(&meta, &args.place), file) } else { args.place.clone() };
    let unreadable = |error: &io::Error| Failure::unreadable(&path, error);
    let mut source: Box<dyn Read> = match path.as_os_str().as_bytes() {
        b"-" => Box::new(io::stdin()),
        _ => Box::new(File::open(&path).map_err(|error| unreadable(&error))?),
    };
    if file.length == 0 {
        return Ok(Verdict::Right);
    }
    write(file, &meta, &mut source, &path)
}

/// Piece by piece, each judged before its first byte is written.
fn write(file: &Entry, meta: &Meta, source: &mut dyn Read, path: &Path) -> Result<Verdict, Failure> {
    let mut pieces = Pieces::new(file, meta.piece_length).map_err(|refusal| Failure::refused(path, refusal))?;
    let mut buffer = vec![0; meta.piece_length.min(file.length) as usize];
    for piece in 0..file.pieces(meta.piece_length) {
        let (at, size) = pieces.place(piece);
        let bytes = fill(source, &mut buffer[..size as usize]).map_err(|error| Failure::unreadable(path, &error))?;
        if let Err(refusal) = pieces.judge(piece, bytes) {
            out::warn(&format!("{}: from byte {at} on nothing is written: {refusal}", path_shown(path)));
            return Ok(Verdict::Wrong);
        }
        out::bytes(bytes)?;
    }
    Ok(Verdict::Right)
}

/// As many bytes as there are.
fn fill<'b>(source: &mut dyn Read, buffer: &'b mut [u8]) -> io::Result<&'b [u8]> {
    let mut got = 0;
    while got < buffer.len() {
        match source.read(&mut buffer[got..]) {
            Ok(0) => break,
            Ok(more) => got += more,
            Err(error) if error.kind() == ErrorKind::Interrupted => (),
            Err(error) => return Err(error),
        }
    }
    Ok(&buffer[..got])
}
