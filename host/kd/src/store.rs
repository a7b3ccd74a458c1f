//! `kd store`: stores that a gateway has saved.

use crate::colour::Colour;
use crate::end::{path_shown, Failure, Verdict};
use crate::{json, out, whole};
use clap::Subcommand;
use kombudeva::limits::{BLOCK, LONGEST_FILE, SMALLEST_PIECE_LENGTH};
use kombudeva::{store_size, Facts, Refusal, Store};
use readable::{count, hex, size};
use serde::Serialize;
use std::fs::File;
use std::io::{self, Read};
use std::os::unix::ffi::OsStrExt;
use std::path::{Path, PathBuf};

/// Look at saved stores, check them, repair them
#[derive(clap::Args)]
pub struct Args {
    #[command(subcommand)]
    verb: Verb,
}

#[derive(Subcommand)]
enum Verb {
    /// Show what a saved store has: the file's facts, hashes held, blocks judged right
    Show {
        /// One JSON object
        #[arg(long)]
        json: bool,
        /// The saved store, or - for standard input
        saved: PathBuf,
    },
    /// Load saved stores: ok, or wrong with the number
    Check {
        /// Say only what is not ok
        #[arg(short, long)]
        quiet: bool,
        /// One JSON object a line
        #[arg(long)]
        json: bool,
        /// Saved stores, or - for standard input
        #[arg(required = true)]
        saved: Vec<PathBuf>,
    },
    /// Write a store of what can be kept of a damaged one; all marks are cleared
    Repair {
        /// Say only what is wrong
        #[arg(short, long)]
        quiet: bool,
        /// Where to write, - for standard output; never the damaged one itself
        #[arg(short, long)]
        output: PathBuf,
        /// The damaged store, or - for standard input
        saved: PathBuf,
    },
}

pub fn run(args: &Args, colour: Colour) -> Result<Verdict, Failure> {
    match &args.verb {
        Verb::Show { json, saved } => show(saved, *json),
        Verb::Check { quiet, json, saved } => check(saved, *quiet, *json, colour),
        Verb::Repair { quiet, output, saved } => repair(saved, output, *quiet),
    }
}

/// What a store has.
struct Held {
    facts: Facts,
    /// Positions held, padding among them.
    held: u64,
    leaves: u64,
    blocks: u64,
    marked: u64,
}

fn show(saved: &Path, json: bool) -> Result<Verdict, Failure> {
    let bytes = read(saved)?;
    let held = load(&bytes).map_err(|refusal| Failure::refused(saved, refusal))?;
    if json {
        out::object(&Object::of(saved, Ok(&held)))?;
        return Ok(Verdict::Right);
    }
    let Facts { length, piece_length, root } = held.facts;
    out::line(&format!("length        {} ({})", size(length), count(length, "byte")))?;
    out::line(&format!("piece length  {}", size(piece_length)))?;
    out::line(&format!("root          {}", hex(&root)))?;
    out::line(&format!("hashes held   {}; leaves {} of {}", held.held, held.leaves, held.blocks))?;
    out::line(&format!("judged right  {} of {}", held.marked, count(held.blocks, "block")))?;
    Ok(Verdict::Right)
}

fn check(paths: &[PathBuf], quiet: bool, json: bool, colour: Colour) -> Result<Verdict, Failure> {
    let mut verdict = Verdict::Right;
    for path in paths {
        let held = match read(path) {
            Ok(bytes) => load(&bytes),
            Err(failure) => {
                out::warn(failure.said().unwrap_or_default());
                verdict = verdict.max(failure.verdict());
                continue;
            }
        };
        if held.is_err() {
            verdict = verdict.max(Verdict::Wrong);
        }
        if quiet && held.is_ok() {
            continue;
        }
        if json {
            out::object(&Object::of(path, held.as_ref().map_err(|refusal| *refusal)))?;
        } else {
            out::line(&line(path, &held, colour))?;
        }
    }
    Ok(verdict)
}

fn line(path: &Path, held: &Result<Held, Refusal>, colour: Colour) -> String {
    match held {
        Ok(held) => {
            let what = format!("{} held, {} of {} right", held.held, held.marked, count(held.blocks, "block"));
            format!("{}  {}  {what}", colour.good("ok   "), path_shown(path))
        }
        Err(refusal) => format!("{}  {}  {refusal}", colour.bad("wrong"), path_shown(path)),
    }
}

fn repair(saved: &Path, output: &Path, quiet: bool) -> Result<Verdict, Failure> {
    let same = |path: &Path| path.canonicalize().ok();
    if same(saved).is_some() && same(saved) == same(output) {
        return Err(Failure::usage("a repair is never in place: name another file"));
    }
    let bytes = read(saved)?;
    let refused = |refusal| Failure::refused(saved, refusal);
    let (store, repaired) = Store::repair(room(), &bytes).map_err(refused)?;
    let facts = store.facts().map_err(refused)?;
    // Twice the store is always room enough.
    let mut room = vec![0; 2 * store_size(facts.length, facts.piece_length).map_err(refused)?];
    let mended = store.save(&mut room).map_err(refused)?;
    if output == Path::new("-") {
        out::bytes(mended)?;
        return Ok(Verdict::Right);
    }
    whole::write(output, mended).map_err(|error| Failure::unreadable(output, &error))?;
    if !quiet {
        let hashes = format!("{} dropped, {} held", repaired.dropped, repaired.held);
        out::line(&format!("{}: {hashes}; no block is marked: judge them anew", path_shown(output)))?;
    }
    Ok(Verdict::Right)
}

fn load(saved: &[u8]) -> Result<Held, Refusal> {
    let (store, held) = Store::load(room(), saved)?;
    let facts = store.facts()?;
    let blocks = facts.length.div_ceil(BLOCK);
    let leaves = (0..blocks).filter(|block| store.held(0, *block).is_ok()).count() as u64;
    let marked = (0..blocks).filter(|block| store.marked(*block) == Ok(true)).count() as u64;
    Ok(Held { facts, held, leaves, blocks, marked })
}

/// Memory for any store: what a saved one does not need is never touched.
fn room() -> Vec<u8> {
    vec![0; largest_store()]
}

fn largest_store() -> usize {
    store_size(LONGEST_FILE, SMALLEST_PIECE_LENGTH).expect("the longest file has a store")
}

/// At most one byte more than the largest store may have when it is saved.
fn read(path: &Path) -> Result<Vec<u8>, Failure> {
    let mut bytes = Vec::new();
    let open = || -> io::Result<Box<dyn Read>> {
        Ok(if path == Path::new("-") { Box::new(io::stdin()) } else { Box::new(File::open(path)?) })
    };
    let read = open().and_then(|source| source.take(2 * largest_store() as u64 + 1).read_to_end(&mut bytes));
    read.map_err(|error| Failure::unreadable(path, &error))?;
    Ok(bytes)
}

#[derive(Serialize)]
struct Object {
    #[serde(flatten)]
    path: json::Path,
    number: u32,
    #[serde(flatten)]
    held: Option<HeldObject>,
}

#[derive(Serialize)]
struct HeldObject {
    length: u64,
    piece_length: u64,
    root: String,
    held: u64,
    leaves: u64,
    blocks: u64,
    marked: u64,
}

impl Object {
    fn of(path: &Path, held: Result<&Held, Refusal>) -> Object {
        let object = |held: &Held| HeldObject {
            length: held.facts.length,
            piece_length: held.facts.piece_length,
            root: hex(&held.facts.root),
            held: held.held,
            leaves: held.leaves,
            blocks: held.blocks,
            marked: held.marked,
        };
        let number = held.err().map_or(0, Refusal::number);
        Object { path: json::Path::new(path.as_os_str().as_bytes()), number, held: held.ok().map(object) }
    }
}
