//! Judging all files, in shares that several threads take one after another.

use super::found::{Found, Wrong};
use super::report::Report;
use crate::pieces::Pieces;
use crate::place;
use crate::progress::Progress;
use crate::torrent::{Entry, Meta};
use std::fs::File;
use std::io::{self, ErrorKind};
use std::ops::Range;
use std::os::unix::fs::FileExt;
use std::path::PathBuf;
use std::sync::atomic::{AtomicUsize, Ordering};
use std::sync::Mutex;

/// A share has about this many bytes.
const SHARE: u64 = 64 << 20;
/// Each thread has room for a piece: all of them together at most this much, so that memory stays below 64 MiB.
const ROOM: u64 = 32 << 20;

/// Some pieces of a file. An empty file has one share without pieces.
struct Share {
    file: usize,
    pieces: Range<u64>,
}

/// The files of a torrent, and where they stand.
pub struct Files<'a> {
    pub meta: &'a Meta,
    pub paths: Vec<PathBuf>,
    pub progress: &'a Progress,
}

/// How many shares a file has.
pub fn shares_of(file: &Entry, piece_length: u64) -> usize {
    file.pieces(piece_length).div_ceil(in_a_share(piece_length)).max(1) as usize
}

fn in_a_share(piece_length: u64) -> u64 {
    SHARE / piece_length
}

impl Files<'_> {
    pub fn judge_all<'r>(&self, threads: usize, report: Report<'r>) -> Report<'r> {
        let shares = self.shares();
        let (next, report) = (AtomicUsize::new(0), Mutex::new(report));
        let work = || {
            let mut buffer = Vec::new();
            while let Some(share) = shares.get(next.fetch_add(1, Ordering::Relaxed)) {
                let found = self.judge(share, &mut buffer);
                let mut report = report.lock().expect("no thread panics");
                report.found(share.file, found);
                if report.is_over() {
                    break;
                }
            }
        };
        let threads = threads.min(shares.len()).min((ROOM / self.meta.piece_length) as usize);
        // This thread is one of them: where one is enough, none is started.
        std::thread::scope(|scope| {
            for _ in 1..threads {
                scope.spawn(work);
            }
            work();
        });
        report.into_inner().expect("no thread panics")
    }

    fn shares(&self) -> Vec<Share> {
        let step = in_a_share(self.meta.piece_length);
        let of_a_file = |(file, entry): (usize, &Entry)| {
            let all = entry.pieces(self.meta.piece_length);
            let share = move |share: u64| Share { file, pieces: share * step..all.min((share + 1) * step) };
            (0..shares_of(entry, self.meta.piece_length) as u64).map(share)
        };
        self.meta.files.iter().enumerate().flat_map(of_a_file).collect()
    }

    fn judge(&self, share: &Share, buffer: &mut Vec<u8>) -> Found {
        let mut found = Found::default();
        match place::open(&self.paths[share.file]) {
            Ok((data, on_disk)) => {
                found.on_disk = on_disk;
                found.unread = self.judge_pieces(share, &data, buffer, &mut found).err();
            }
            Err(error) if matches!(error.kind(), ErrorKind::NotFound | ErrorKind::NotADirectory) => {
                found.missing = true;
                self.pass(share);
            }
            Err(error) => found.unread = Some(error),
        }
        found
    }

    /// A share that is not there is done with.
    fn pass(&self, share: &Share) {
        let (length, piece_length) = (self.meta.files[share.file].length, self.meta.piece_length);
        self.progress.add((share.pieces.end * piece_length).min(length) - share.pieces.start * piece_length);
    }

    fn judge_pieces(&self, share: &Share, data: &File, buffer: &mut Vec<u8>, found: &mut Found) -> io::Result<()> {
        if share.pieces.is_empty() {
            return Ok(());
        }
        let file = &self.meta.files[share.file];
        let mut pieces = Pieces::new(file, self.meta.piece_length)?;
        buffer.resize(self.meta.piece_length.min(file.length) as usize, 0);
        for piece in share.pieces.clone() {
            let (at, size) = pieces.place(piece);
            let bytes = read_at(data, &mut buffer[..size as usize], at)?;
            match pieces.judge(piece, bytes) {
                Ok(()) => found.right += size,
                Err(refusal) => {
                    found.wrong.push(Wrong { first: at, last: at + size - 1, number: refusal.number() });
                    found.wrong_pieces += 1;
                }
            }
            self.progress.add(size);
        }
        Ok(())
    }
}

/// As many bytes as there are.
fn read_at<'b>(file: &File, buffer: &'b mut [u8], at: u64) -> io::Result<&'b [u8]> {
    let mut got = 0;
    while got < buffer.len() {
        match file.read_at(&mut buffer[got..], at + got as u64) {
            Ok(0) => break,
            Ok(more) => got += more,
            Err(error) if error.kind() == ErrorKind::Interrupted => (),
            Err(error) => return Err(error),
        }
    }
    Ok(&buffer[..got])
}
