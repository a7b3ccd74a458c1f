//! `kd explain`: what the library's numbers mean to whoever has one before him.

use crate::end::{Failure, Verdict};
use crate::out;
use kombudeva::Refusal::{self, *};
use serde::Serialize;

/// Say what a number of the library means, or all of them
#[derive(clap::Args)]
pub struct Args {
    /// One JSON object a line
    #[arg(long)]
    json: bool,
    #[arg(value_name = "NUMBER")]
    numbers: Vec<u32>,
}

/// Each refusal, and what it means in a day's work.
const MEANINGS: [(Refusal, &str); 26] = [
    (NoMessage, "Too short for a hash message, or another kind of message."),
    (OtherRoot, "The message names another pieces root than this file's."),
    (RuleBroken, "The file has no such block, piece or position, or a message asks for a run that no tree has."),
    (WrongSize, "More or fewer bytes than there have to be. On a disk: the file ends too early."),
    (WrongPadding, "A hash past the file's end that is not the padding it must be."),
    (NoAnchor, "Not yet: no hash is held to compare with. The same bytes may be right once one is."),
    (Differs, "Wrong bytes: their hash is not the one held. Fetch them anew, from somebody else."),
    (Conflict, "Its chain is right, yet a held hash is another. In a store of one's own: damaged memory, or two strings with one SHA-256."),
    (Unusable, "These bytes are no store: what they say of their file can't be, or they are too few for it."),
    (FactsOutOfRange, "A file has 1 byte to 16 GiB; a piece length is a power of two from 16 KiB to 16 MiB."),
    (NoRoom, "The answer is longer than the room that was lent for it."),
    (NotHeld, "A neighbour asked for a hash that is not held here, and got a reject."),
    (TorrentTooLarge, "No torrent above 1 MiB is read or written. Larger pieces make it smaller."),
    (NotStrict, "Damaged, or no torrent at all: it is not bencoded as the standard wants it."),
    (NestedTooDeeply, "Lists and dictionaries in one another, more than 32 deep."),
    (KeyMissing, "Not a v2 torrent: what makes one is missing or of another type. A v1 torrent gets this number."),
    (OtherVersion, "The torrent says of itself that its version is not 2."),
    (PieceLengthOutOfRange, "The piece length is no power of two from 16 KiB to 16 MiB."),
    (WrongTree, "The file tree is none, or a name could lead out of its folder: empty, . or .., or with a slash or a zero byte."),
    (TwoLengths, "Two files can't have the same bytes and different lengths."),
    (LayersAmiss, "A piece layer is missing, too many, or of another size than its file wants."),
    (LayerDiffers, "A piece layer that does not hash to its file's root: damaged or forged."),
    (NoSuchPart, "The torrent has no file, path element or piece of that number, or no name."),
    (FrameTooLong, "A neighbour announced a message above 300,000 bytes. Nothing more is heard from it."),
    (HalvesDiffer, "A hybrid that says one thing to v1 clients and another to v2 clients, or whose v1 half is malformed."),
    (NotSaved, "No saved store, or a damaged one: cut short, or a hash does not chain to the root. kd store repair may keep a part."),
];

const DONE: Meaning = Meaning { number: 0, words: "done", meaning: "All is right: what was judged may be believed." };

#[derive(Serialize)]
struct Meaning {
    number: u32,
    words: &'static str,
    meaning: &'static str,
}

pub fn run(args: &Args) -> Result<Verdict, Failure> {
    let all = table();
    let known = |number: &u32| all.iter().any(|row| row.number == *number);
    if let Some(unknown) = args.numbers.iter().find(|number| !known(number)) {
        return Err(Failure::usage(format!("the library has no number {unknown}; kd explain lists them")));
    }
    for row in all.iter().filter(|row| args.numbers.is_empty() || args.numbers.contains(&row.number)) {
        if args.json {
            out::object(row)?;
        } else {
            out::line(&format!("{:>2}  {}\n    {}", row.number, row.words, row.meaning))?;
        }
    }
    Ok(Verdict::Right)
}

fn table() -> Vec<Meaning> {
    let row = |(refusal, meaning): &(Refusal, &'static str)| Meaning {
        number: refusal.number(),
        words: refusal.words(),
        meaning,
    };
    std::iter::once(DONE).chain(MEANINGS.iter().map(row)).collect()
}

#[cfg(test)]
mod tests {
    use super::*;

    /// The header's numbers stand between these two, each `#define KD_NAME NUMBER`.
    #[test]
    fn every_number_of_the_header_is_explained() {
        let header = include_str!("../../../include/kombudeva.h");
        let table_at = header.find("#define KD_DONE ").expect("the first number");
        let end = header.find("/* ---- How large things may be").expect("the limits");
        let number = |line: &str| line.strip_prefix("#define KD_")?.split_whitespace().nth(1)?.parse().ok();
        let numbers: Vec<u32> = header[table_at..end].lines().filter_map(number).collect();
        assert_eq!(numbers, table().iter().map(|row| row.number).collect::<Vec<_>>());
    }
}
