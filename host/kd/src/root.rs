//! `kd root`: the pieces root of files. It does not depend on the piece length, so that it tells which file of which torrent a file is.

use crate::end::{Failure, Verdict};
use crate::hashed::read_all;
use crate::json;
use crate::out;
use crate::progress::Progress;
use kombudeva::limits::{HASH, LARGEST_PIECE_LENGTH, LONGEST_FILE};
use kombudeva::{Hash, History};
use readable::{hex, on_terminal};
use serde::Serialize;
use std::fs::File;
use std::io::{self, Read};
use std::os::unix::ffi::OsStrExt;
use std::path::{Path, PathBuf};

/// Print the pieces root of each file, in the form of sha256sum
#[derive(clap::Args)]
pub struct Args {
    /// Show no progress
    #[arg(short, long)]
    quiet: bool,
    /// One JSON object a line
    #[arg(long)]
    json: bool,
    /// Files, or - for standard input
    #[arg(required = true, value_name = "FILE")]
    files: Vec<PathBuf>,
}

/// Tells of each file; one that can't be read does not keep the others from being told.
pub fn run(args: &Args) -> Result<Verdict, Failure> {
    let mut verdict = Verdict::Right;
    for path in &args.files {
        match root(path, args.quiet) {
            Ok((length, root)) => tell(path, length, root, args.json)?,
            Err(failure) => {
                out::warn(failure.said().unwrap_or_default());
                verdict = verdict.max(failure.verdict());
            }
        }
    }
    Ok(verdict)
}

fn root(path: &Path, quiet: bool) -> Result<(u64, Hash), Failure> {
    let mut layer = [0; HASH * (LONGEST_FILE / LARGEST_PIECE_LENGTH) as usize];
    let refused = |refusal| Failure::refused(path, refusal);
    let mut history = History::begin(LARGEST_PIECE_LENGTH, &mut layer).map_err(refused)?;
    let (mut source, length) = open(path).map_err(|error| Failure::unreadable(path, &error))?;
    read_all(&mut source, path, &mut history, &Progress::new("root", length, quiet))?;
    let logged = history.end().map_err(refused)?;
    Ok((logged.length, logged.root))
}

/// The bytes, and how many they are if that is known.
fn open(path: &Path) -> io::Result<(Box<dyn Read>, Option<u64>)> {
    if path == Path::new("-") {
        return Ok((Box::new(io::stdin()), None));
    }
    let file = File::open(path)?;
    let facts = file.metadata()?;
    Ok((Box::new(file), facts.is_file().then_some(facts.len())))
}

/// As sha256sum does, a line with an escaped name begins with a backslash.
fn tell(path: &Path, length: u64, root: Hash, json: bool) -> Result<(), Failure> {
    let (name, root) = (path.as_os_str().as_bytes(), hex(&root));
    if json {
        return out::object(&Object { path: json::Path::new(name), length, root });
    }
    let text = on_terminal(name);
    let mark = if text.as_bytes() == name { "" } else { "\\" };
    out::line(&format!("{mark}{root}  {text}"))
}

#[derive(Serialize)]
struct Object {
    #[serde(flatten)]
    path: json::Path,
    length: u64,
    root: String,
}
