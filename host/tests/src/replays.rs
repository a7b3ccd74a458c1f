//! Inputs for the replay program: sessions as records, some of them broken; and the program itself, run on them.

use crate::random::Random;
use crate::truth::{self, Truth};
use reference::limits::LONGEST_FILE;
use reference::messages::{Header, HASHES, HEAD};
use std::ffi::OsStr;
use std::os::fd::OwnedFd;
use std::os::unix::net::UnixDatagram;
use std::path::{Path, PathBuf};
use std::process::{Child, Command, Stdio};
use std::{env, fs};

/// A record: its kind, then its body.
pub fn record(kind: u8, body: &[u8]) -> Vec<u8> {
    [&[kind], body].concat()
}

pub fn opening(length: u64, piece_length: u64, root: &[u8; 32]) -> Vec<u8> {
    record(1, &[&length.to_be_bytes()[..], &(piece_length as u32).to_be_bytes(), root].concat())
}

pub fn opening_of(truth: &Truth) -> Vec<u8> {
    opening(truth.facts.length, truth.facts.piece_length, &truth.facts.root)
}

/// A message of the protocol as records.
pub fn message(bytes: &[u8]) -> Vec<u8> {
    let hashes = bytes[HEAD..].chunks_exact(32).flat_map(|hash| record(3, hash));
    record(2, &bytes[1..HEAD]).into_iter().chain(hashes).chain(record(4, &[])).collect()
}

/// The true message about a file with this base layer, index, length and proof layers, as records.
pub fn true_message(truth: &Truth, [base, index, length, proof]: [u32; 4]) -> Vec<u8> {
    message(&truth.message(&Header { root: truth.facts.root, base, index, length, proof }))
}

/// A true message about a file, or one with a byte changed.
fn about(truth: &Truth, random: &mut Random) -> Vec<u8> {
    let Some(header) = truth.header(random) else { return record(4, &[]) };
    let mut bytes = truth.message(&header);
    if random.percent(20) {
        let at = random.between(1, bytes.len() as u64 - 1) as usize;
        bytes[at] ^= 1 << random.below(8);
    }
    assert_eq!(bytes[0], HASHES);
    message(&bytes)
}

/// A refused opening: facts out of range, or more than 512 blocks.
fn refused_opening(truth: &Truth, random: &mut Random) -> Vec<u8> {
    let length = random.pick(&[0, 512 * 16384 + 1, 1 << 30, LONGEST_FILE, u64::MAX]);
    opening(length, truth.facts.piece_length, &truth.facts.root)
}

fn many_hashes(random: &mut Random) -> Vec<u8> {
    let count = random.pick(&[527, 528, 529, 600, 8192]);
    let hashes = record(3, &[0; 32]).repeat(count);
    [record(2, &[0; 48]), hashes, record(4, &[])].concat()
}

/// Something out of turn or unknown.
fn broken(random: &mut Random) -> Vec<u8> {
    match random.below(4) {
        0 => record(3, &[0; 32]),
        1 => record(4, &[]),
        2 => record(2, &[0; 48]),
        _ => vec![random.pick(&[0, 5, 21, 255])],
    }
}

/// One input for the program.
pub fn any(random: &mut Random) -> Vec<u8> {
    let truth = truth::small(random);
    let mut input = Vec::new();
    if random.percent(90) {
        input.extend(opening_of(&truth));
    }
    for _ in 0..random.below(9) {
        input.extend(match random.below(40) {
            0 => broken(random),
            1 => many_hashes(random),
            2 => refused_opening(&truth, random),
            3 => opening_of(&truth),
            4 => opening_of(&truth::small(random)),
            _ => about(&truth, random),
        });
    }
    if random.percent(20) {
        input.truncate(random.below(input.len() as u64 + 1) as usize);
    }
    input
}

/// Where the replay program is: `target/bin/replay`, if it has been built.
pub fn program() -> Option<PathBuf> {
    let path = Path::new(env!("CARGO_MANIFEST_DIR")).join("../../target/bin/replay");
    path.is_file().then_some(path)
}

/// Starts the program, under the emulator that KD_RUN names if there is one.
fn start(program: &Path, input: Stdio) -> Child {
    let emulator = env::var("KD_RUN").unwrap_or_default();
    let mut words = emulator.split_whitespace().map(OsStr::new).chain([program.as_os_str()]);
    let mut command = Command::new(words.next().expect("at least the program"));
    command.args(words).stdin(input).stdout(Stdio::piped()).spawn().expect("the replay program starts")
}

fn printed(child: Child) -> String {
    let output = child.wait_with_output().expect("the replay program ends");
    assert!(output.status.success(), "the replay program: {}", output.status);
    String::from_utf8(output.stdout).expect("it prints text")
}

/// What the program prints for an input that comes in pieces of so many bytes. Each is a datagram, so that one read gets
/// one piece, which a pipe would not promise; an empty one is the end.
pub fn by_program(program: &Path, input: &[u8], piece: usize) -> String {
    let (ours, its) = UnixDatagram::pair().expect("two sockets");
    let child = start(program, Stdio::from(OwnedFd::from(its)));
    for bytes in input.chunks(piece).chain([&[][..]]) {
        ours.send(bytes).expect("the program reads on to the end");
    }
    printed(child)
}

/// What the program prints where every read fails: its input is a folder.
pub fn by_program_without_input(program: &Path) -> String {
    printed(start(program, Stdio::from(fs::File::open("/").expect("the root folder"))))
}
