//! `kd extends`: did a file get younger? Whether each file of a new torrent begins with the one of an old torrent.

use crate::colour::Colour;
use crate::end::{Failure, Verdict};
use crate::torrent::{Entry, Meta};
use crate::{json, out, place};
use kombudeva::limits::{BLOCK, HEADER_SIZE};
use kombudeva::{store_size, Refusal, Store};
use readable::{hex, on_terminal, size};
use serde::Serialize;
use std::io;
use std::os::unix::fs::FileExt;
use std::path::{Path, PathBuf};

/// Ask of each file of two torrents whether the new one begins with the old one
#[derive(clap::Args)]
pub struct Args {
    /// Say only what is not so
    #[arg(short, long)]
    quiet: bool,
    /// One JSON object a line
    #[arg(long)]
    json: bool,
    /// The old torrent
    old: PathBuf,
    /// The new torrent
    new: PathBuf,
    /// The folder of the new files, or the one above it
    #[arg(default_value = ".")]
    place: PathBuf,
}

/// What became of a file.
#[derive(Clone, Copy, PartialEq, Eq, Serialize)]
#[serde(rename_all = "lowercase")]
enum Became {
    /// The new file begins with the old one.
    Extended,
    /// It does not; or the bytes at the place are not the new file's.
    Younger,
    /// The new torrent has no such file.
    Gone,
    /// The old one has none.
    New,
    Unread,
}

pub fn run(args: &Args, colour: Colour) -> Result<Verdict, Failure> {
    let (old, new) = (Meta::read(&args.old)?, Meta::read(&args.new)?);
    let folder = place::folder(&new, &args.place);
    let mut verdict = Verdict::Right;
    for before in &old.files {
        let told = match new.files.iter().find(|file| file.path == before.path) {
            None => Told::of(before, None, Became::Gone),
            Some(now) => ask(before, now, new.piece_length, &place::below(&folder, now)),
        };
        verdict = verdict.max(told.verdict());
        told.tell(args, colour)?;
    }
    for now in new.files.iter().filter(|file| old.files.iter().all(|before| before.path != file.path)) {
        Told::of(now, Some(now), Became::New).tell(args, colour)?;
    }
    Ok(verdict)
}

/// Asks the library about one file of both.
fn ask<'a>(old: &'a Entry, new: &'a Entry, piece_length: u64, path: &Path) -> Told<'a> {
    // Every file begins with an empty one: there is nothing to ask.
    if old.length == 0 {
        return Told::of(old, Some(new), Became::Extended);
    }
    match extends(old, new, piece_length, path) {
        Ok(Ok(())) => Told::of(old, Some(new), Became::Extended),
        Ok(Err(refusal)) => Told { refusal: Some(refusal), ..Told::of(old, Some(new), Became::Younger) },
        Err(error) => Told { error: Some(error.to_string()), ..Told::of(old, Some(new), Became::Unread) },
    }
}

/// A store of the new file with its piece layer. What the call needs below that lies in the piece that the old file ends in: its leaves
/// are worked out from the file at its place, and taken.
fn extends(old: &Entry, new: &Entry, piece_length: u64, path: &Path) -> io::Result<Result<(), Refusal>> {
    if new.length == 0 {
        return Ok(Err(Refusal::RuleBroken));
    }
    let mut store = Store::open(vec![0; store_size(new.length, piece_length)?], new.length, piece_length, new.root)?;
    if !new.layer.is_empty() {
        store.load_layer(&new.layer)?;
    }
    let inside = !old.length.is_multiple_of(piece_length) && old.length <= new.length;
    let (mut data, mut block) = (Vec::new(), 0..0);
    if inside {
        let piece = old.length / piece_length;
        data = read_piece(path, piece * piece_length, piece_length.min(new.length - piece * piece_length))?;
        let mut room = vec![0; HEADER_SIZE + piece_length as usize / 512];
        let message = match store.piece_hashes(piece, &data, &mut room) {
            Ok(message) => message,
            Err(refusal) => return Ok(Err(refusal)),
        };
        if !message.is_empty() {
            store.take(message)?;
        }
        if !old.length.is_multiple_of(BLOCK) {
            let first = (old.length / BLOCK * BLOCK - piece * piece_length) as usize;
            block = first..data.len().min(first + BLOCK as usize);
        }
    }
    Ok(store.extends(old.length, old.root, &data[block]))
}

fn read_piece(path: &Path, at: u64, bytes: u64) -> io::Result<Vec<u8>> {
    let (file, _) = place::open(path)?;
    let mut data = vec![0; bytes as usize];
    file.read_exact_at(&mut data, at)?;
    Ok(data)
}

struct Told<'a> {
    old: &'a Entry,
    new: Option<&'a Entry>,
    became: Became,
    refusal: Option<Refusal>,
    error: Option<String>,
}

impl<'a> Told<'a> {
    fn of(old: &'a Entry, new: Option<&'a Entry>, became: Became) -> Told<'a> {
        Told { old, new, became, refusal: None, error: None }
    }

    fn verdict(&self) -> Verdict {
        match self.became {
            Became::Extended | Became::New => Verdict::Right,
            Became::Younger | Became::Gone => Verdict::Wrong,
            Became::Unread => Verdict::Unread,
        }
    }

    fn tell(&self, args: &Args, colour: Colour) -> Result<(), Failure> {
        if args.quiet && self.verdict() == Verdict::Right {
            return Ok(());
        }
        if args.json {
            return out::object(&self.object());
        }
        let (word, lengths) = match self.became {
            Became::Extended => ("extended", self.lengths()),
            Became::Younger => ("younger", self.lengths()),
            Became::Gone => ("gone", size(self.old.length)),
            Became::New => ("new", size(self.old.length)),
            Became::Unread => ("unread", self.lengths()),
        };
        let word = format!("{word:<8}");
        let word = if self.verdict() == Verdict::Right { colour.good(&word) } else { colour.bad(&word) };
        let refused = self.refusal.map(|refusal| format!("  {refusal}"));
        let why = refused.or_else(|| self.error.as_ref().map(|error| format!("  {error}"))).unwrap_or_default();
        out::line(&format!("{word} {lengths:>22}  {}{why}", on_terminal(&self.old.joined())))
    }

    fn lengths(&self) -> String {
        let new = self.new.map_or(0, |file| file.length);
        format!("{} to {}", size(self.old.length), size(new))
    }

    fn object(&self) -> Object {
        Object {
            path: json::Path::new(&self.old.joined()),
            became: self.became,
            number: (self.became == Became::Extended).then_some(0).or(self.refusal.map(Refusal::number)),
            old_length: (self.became != Became::New).then_some(self.old.length),
            new_length: self.new.map(|file| file.length),
            new_root: self.new.map(|file| hex(&file.root)),
            error: self.error.clone(),
        }
    }
}

#[derive(Serialize)]
struct Object {
    #[serde(flatten)]
    path: json::Path,
    became: Became,
    #[serde(skip_serializing_if = "Option::is_none")]
    number: Option<u32>,
    #[serde(skip_serializing_if = "Option::is_none")]
    old_length: Option<u64>,
    #[serde(skip_serializing_if = "Option::is_none")]
    new_length: Option<u64>,
    #[serde(skip_serializing_if = "Option::is_none")]
    new_root: Option<String>,
    #[serde(skip_serializing_if = "Option::is_none")]
    error: Option<String>,
}
