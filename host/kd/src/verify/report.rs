//! What is said of each file, in the torrent's order, as soon as it and all before it are judged.

use super::found::{Found, State, Wrong};
use super::work::shares_of;
use crate::colour::Colour;
use crate::end::{Failure, Verdict};
use crate::json::Path;
use crate::out;
use crate::progress::Progress;
use crate::torrent::{Entry, Meta};
use readable::{count, hex, on_terminal, size};
use serde::Serialize;

pub struct Report<'a> {
    meta: &'a Meta,
    quiet: bool,
    json: bool,
    colour: Colour,
    progress: &'a Progress,
    /// For each file what was found so far, and how many shares are still to come.
    files: Vec<(Found, usize)>,
    /// How many files have been told.
    told: usize,
    sum: Sum,
    failure: Option<Failure>,
}

/// The files and bytes told so far.
#[derive(Default, Serialize)]
struct Sum {
    files: u64,
    ok: u64,
    wrong: u64,
    missing: u64,
    longer: u64,
    unread: u64,
    bytes: u64,
    believed: u64,
}

impl<'a> Report<'a> {
    pub fn new(meta: &'a Meta, quiet: bool, json: bool, colour: Colour, progress: &'a Progress) -> Report<'a> {
        let files = meta.files.iter().map(|file| (Found::default(), shares_of(file, meta.piece_length))).collect();
        Report { meta, quiet, json, colour, progress, files, told: 0, sum: Sum::default(), failure: None }
    }

    /// Hears of a share, and tells the files that are complete with it.
    pub fn found(&mut self, file: usize, found: Found) {
        self.files[file].0.join(found);
        self.files[file].1 -= 1;
        while !self.is_over() && self.files[self.told].1 == 0 {
            let found = std::mem::take(&mut self.files[self.told].0);
            self.failure = self.tell(&self.meta.files[self.told], &found).err();
            self.told += 1;
        }
    }

    /// Nothing more is to be told.
    pub fn is_over(&self) -> bool {
        self.told == self.files.len() || self.failure.is_some()
    }

    fn tell(&mut self, file: &Entry, found: &Found) -> Result<(), Failure> {
        let state = found.state(file.length);
        self.sum.add(state, file.length, found.right);
        if self.quiet && state == State::Ok {
            return Ok(());
        }
        let text = if self.json { self.object(file, found, state) } else { self.line(file, found, state) };
        self.progress.beside(|| out::line(&text))
    }

    fn line(&self, file: &Entry, found: &Found, state: State) -> String {
        let word = format!("{:<8}", state.word());
        let word = if state == State::Ok { self.colour.good(&word) } else { self.colour.bad(&word) };
        let why = match state {
            State::Ok | State::Missing => String::new(),
            State::Wrong => format!("  {}", wrong_in_words(file, found, self.meta.piece_length)),
            State::Longer => format!("  right, but {} follow", count(found.on_disk - file.length, "byte")),
            State::Unread => found.unread.as_ref().map_or_else(String::new, |error| format!("  {error}")),
        };
        format!("{word} {:>10}  {}{why}", size(file.length), on_terminal(&file.joined()))
    }

    fn object(&self, file: &Entry, found: &Found, state: State) -> String {
        crate::json::text(&Object {
            path: Path::new(&file.joined()),
            state,
            length: file.length,
            on_disk: (!found.missing && found.unread.is_none()).then_some(found.on_disk),
            root: hex(&file.root),
            pieces: file.pieces(self.meta.piece_length),
            wrong_pieces: found.wrong_pieces,
            wrong: found.wrong(),
            error: found.unread.as_ref().map(ToString::to_string),
        })
    }

    /// The last line, and the verdict on all files.
    pub fn end(self) -> Result<Verdict, Failure> {
        self.progress.clear();
        if let Some(failure) = self.failure {
            return Err(failure);
        }
        if self.json && !self.quiet {
            out::object(&Summary { summary: &self.sum, info_hash: hex(&self.meta.info_hash) })?;
        } else if !self.quiet {
            out::line(&self.sum.line())?;
        }
        Ok(self.sum.verdict())
    }
}

impl Sum {
    fn add(&mut self, state: State, length: u64, right: u64) {
        *match state {
            State::Ok => &mut self.ok,
            State::Wrong => &mut self.wrong,
            State::Missing => &mut self.missing,
            State::Longer => &mut self.longer,
            State::Unread => &mut self.unread,
        } += 1;
        self.files += 1;
        self.bytes += length;
        self.believed += right;
    }

    fn line(&self) -> String {
        let Sum { ok, wrong, missing, .. } = self;
        let seldom = [(self.longer, "longer"), (self.unread, "unread")];
        let seldom: String =
            seldom.iter().filter(|(files, _)| *files > 0).map(|(files, word)| format!(", {files} {word}")).collect();
        let believed = match self.bytes - self.believed {
            0 => format!("{} may be believed", size(self.bytes)),
            not => format!("{} of {} may not be believed", size(not), size(self.bytes)),
        };
        format!("{}: {ok} ok, {wrong} wrong, {missing} missing{seldom}; {believed}", count(self.files, "file"))
    }

    fn verdict(&self) -> Verdict {
        match () {
            () if self.unread > 0 => Verdict::Unread,
            () if self.ok < self.files => Verdict::Wrong,
            () => Verdict::Right,
        }
    }
}

/// So many parts are named in a line; the rest are counted.
const NAMED: usize = 4;

fn wrong_in_words(file: &Entry, found: &Found, piece_length: u64) -> String {
    let parts = found.wrong();
    let named: Vec<_> = parts.iter().take(NAMED).map(|part| format!("{}-{}", part.first, part.last)).collect();
    let more = if parts.len() > NAMED { format!(" and {} more", parts.len() - NAMED) } else { String::new() };
    let pieces = format!("{} of {}", found.wrong_pieces, count(file.pieces(piece_length), "piece"));
    let end = match found.on_disk {
        short if short < file.length => format!("; it ends after {}", count(short, "byte")),
        long if long > file.length => format!("; {} follow", count(long - file.length, "byte")),
        _ => String::new(),
    };
    format!("{pieces}: bytes {}{more}{end}", named.join(", "))
}

#[derive(Serialize)]
struct Object {
    #[serde(flatten)]
    path: Path,
    state: State,
    length: u64,
    #[serde(skip_serializing_if = "Option::is_none")]
    on_disk: Option<u64>,
    root: String,
    pieces: u64,
    wrong_pieces: u64,
    wrong: Vec<Wrong>,
    #[serde(skip_serializing_if = "Option::is_none")]
    error: Option<String>,
}

#[derive(Serialize)]
struct Summary<'a> {
    summary: &'a Sum,
    info_hash: String,
}
