//! `kd verify`: is what stands on a disk what the torrent says?

mod found;
mod report;
mod work;

use crate::colour::Colour;
use crate::end::{Failure, Verdict};
use crate::place;
use crate::progress::Progress;
use crate::torrent::Meta;
use report::Report;
use std::fs;
use std::num::NonZeroUsize;
use std::path::{Path, PathBuf};
use work::Files;

/// Judge every piece of every file of a torrent: ok, wrong, missing, longer or unread
#[derive(clap::Args)]
pub struct Args {
    /// Say only what is not ok
    #[arg(short, long)]
    quiet: bool,
    /// One JSON object a line, the last one a summary
    #[arg(long)]
    json: bool,
    /// Judge with so many threads, at most; by default four
    #[arg(short = 'j', long, value_name = "N")]
    threads: Option<NonZeroUsize>,
    /// The torrent, or - for standard input
    torrent: PathBuf,
    /// The folder of the files or the one above it; for a torrent of one file also that file, by any name
    #[arg(default_value = ".")]
    place: PathBuf,
}

pub fn run(args: &Args, colour: Colour) -> Result<Verdict, Failure> {
    let meta = Meta::to_judge(&args.torrent)?;
    let paths = paths(&meta, &args.place)?;
    let progress = Progress::new("verify", Some(meta.length()), args.quiet);
    let report = Report::new(&meta, args.quiet, args.json, colour, &progress);
    Files { meta: &meta, paths, progress: &progress }.judge_all(threads(args), report).end()
}

fn threads(args: &Args) -> usize {
    let usual = || std::thread::available_parallelism().map_or(1, |cores| cores.get().min(4));
    args.threads.map_or_else(usual, NonZeroUsize::get)
}

/// Where each file should stand.
fn paths(meta: &Meta, place: &Path) -> Result<Vec<PathBuf>, Failure> {
    let facts = fs::metadata(place).map_err(|error| Failure::unreadable(place, &error))?;
    if facts.is_dir() {
        let folder = place::folder(meta, place);
        return Ok(meta.files.iter().map(|file| place::below(&folder, file)).collect());
    }
    match &meta.files[..] {
        [_] => Ok(vec![place.to_path_buf()]),
        files => Err(Failure::usage(format!("the torrent has {} files: name their folder", files.len()))),
    }
}
