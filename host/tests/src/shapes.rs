//! Torrents whose shape makes a reader work: an ordinary one of 10,000 files, a hybrid of as many, and hostile ones of 1 MiB, as much as may be.

use crate::random::Random;
use reference::limits::LARGEST_TORRENT;
use reference::number::{DONE, NOT_STRICT};
use reference::sha256::{pair, Hash};
use reference::tree::padding;
use std::collections::{BTreeMap, HashMap};

pub struct Shape {
    pub name: &'static str,
    pub make: fn() -> Vec<u8>,
    /// The number it is answered with.
    pub number: u32,
}

/// The name of the ordinary one.
pub const ORDINARY: &str = "10000-files";

/// The name of the hybrid one.
pub const HYBRID: &str = "10000-hybrid";

pub const ALL: [Shape; 17] = [
    shape(ORDINARY, ten_thousand_files, DONE),
    shape("many-files", || files(1, random_root), DONE),
    shape("empty-files", empty_files, DONE),
    shape("like-roots", || files(1, like_root), DONE),
    shape("twins", || files(1, |_| [7; 32]), DONE),
    shape("long-twin", long_twin, DONE),
    shape("28-elements", || files(28, random_root), DONE),
    shape("own-folders", own_folders, DONE),
    shape("many-layers", many_layers, DONE),
    shape("one-layer", one_layer, DONE),
    shape("small-values", small_values, DONE),
    shape("small-keys", small_keys, DONE),
    shape("huge-prefix", huge_prefix, NOT_STRICT),
    shape(HYBRID, ten_thousand_in_both_halves, DONE),
    shape("hybrid-files", || hybrid_files(1), DONE),
    shape("hybrid-28", || hybrid_files(28), DONE),
    shape("hybrid-padding", hybrid_padding, DONE),
];

const fn shape(name: &'static str, make: fn() -> Vec<u8>, number: u32) -> Shape {
    Shape { name, make, number }
}

fn string(content: &[u8]) -> Vec<u8> {
    [content.len().to_string().as_bytes(), b":", content].concat()
}

/// A torrent with an unknown outer key's entry, the file tree, the piece length and the piece layers, all encoded.
fn torrent(unknown: &[u8], tree: &[u8], piece_length: u64, layers: &[u8]) -> Vec<u8> {
    let piece_length = format!("i{piece_length}e");
    let info: [&[u8]; 5] =
        [b"d9:file tree", tree, b"12:meta versioni2e4:name1:x12:piece length", piece_length.as_bytes(), b"e"];
    [b"d", unknown, b"4:info", &info.concat(), b"12:piece layers", layers, b"e"].concat()
}

/// As many of these entries as make a torrent of 1 MiB, if `around` bytes stand around them, one behind the other.
fn as_many_as_fit(around: usize, entry: impl Fn(u32) -> Vec<u8>) -> Vec<u8> {
    let mut entries = Vec::with_capacity(LARGEST_TORRENT);
    for number in 0.. {
        let next = entry(number);
        if around + entries.len() + next.len() > LARGEST_TORRENT {
            break;
        }
        entries.extend(next);
    }
    entries
}

fn dictionary(entries: &[u8]) -> Vec<u8> {
    [b"d", entries, b"e"].concat()
}

/// A file as a node of the tree.
fn file(length: u64, root: &Hash) -> Vec<u8> {
    [b"d0:d6:lengthi", length.to_string().as_bytes(), b"e11:pieces root32:", root, b"ee"].concat()
}

/// Names of two bytes in ascending order, without zero, `.` and `/`.
fn name(number: u32) -> Vec<u8> {
    let byte = |digit: u32| if digit < 45 { digit + 1 } else { digit + 3 } as u8;
    string(&[byte(number / 253), byte(number % 253)])
}

fn random_root(number: u32) -> Hash {
    Random::new(number as u64).hash()
}

/// Roots that differ in their last bytes alone, and come in descending order.
fn like_root(number: u32) -> Hash {
    let mut root = [0xff; 32];
    root[28..].copy_from_slice(&(u32::MAX - number).to_be_bytes());
    root
}

/// 770 KB: 100 folders of 100 files, none longer than a piece.
fn ten_thousand_files() -> Vec<u8> {
    let folder = |folder: u32| {
        let files = (0..100).flat_map(|in_folder| {
            let number = 100 * folder + in_folder;
            let name = string(format!("{number:05}").as_bytes());
            [name, file(10000 + u64::from(number * 7 % 6384), &random_root(number))].concat()
        });
        [string(format!("{folder:02}").as_bytes()), dictionary(&files.collect::<Vec<u8>>())].concat()
    };
    torrent(b"", &dictionary(&(0..100).flat_map(folder).collect::<Vec<u8>>()), 16384, b"de")
}

/// The most files with a root, each with so many path elements, all but the last alike.
fn files(elements: usize, root: fn(u32) -> Hash) -> Vec<u8> {
    let (before, behind) = (b"1:ad".repeat(elements - 1), b"e".repeat(elements - 1));
    let in_folders = |entries: &[u8]| torrent(b"", &dictionary(&[&before, entries, &behind].concat()), 16384, b"de");
    let around = in_folders(b"").len();
    in_folders(&as_many_as_fit(around, |number| [name(number), file(1, &root(number))].concat()))
}

/// Files without a root are shorter, so there are three times as many.
fn empty_files() -> Vec<u8> {
    let around = torrent(b"", b"de", 16384, b"de").len();
    let entry = |number| [&name(number)[..], b"d0:d6:lengthi0eee"].concat();
    torrent(b"", &dictionary(&as_many_as_fit(around, entry)), 16384, b"de")
}

/// A file that takes half of the torrent, and its twins on both sides.
fn long_twin() -> Vec<u8> {
    let around = torrent(b"", b"de", 16384, b"de").len();
    let unknown = string(&vec![b'x'; LARGEST_TORRENT / 2]);
    let entry = |number: u32| {
        let unknown = if number == 3000 { [&b"1:a"[..], &unknown].concat() } else { Vec::new() };
        [&name(number)[..], b"d0:d", &unknown, b"6:lengthi1e11:pieces root32:", &[7; 32], b"ee"].concat()
    };
    torrent(b"", &dictionary(&as_many_as_fit(around, entry)), 16384, b"de")
}

/// Each file behind 27 folders of its own.
fn own_folders() -> Vec<u8> {
    let around = torrent(b"", b"de", 16384, b"de").len();
    let entry = |number: u32| {
        let inner = [&b"1:a"[..], &file(1, &random_root(number))].concat();
        [&name(number)[..], b"d", &b"1:ad".repeat(26), &inner, &b"e".repeat(27)].concat()
    };
    torrent(b"", &dictionary(&as_many_as_fit(around, entry)), 16384, b"de")
}

/// The root over a layer that is filled up with padding. Equal pairs are hashed once, so that making a torrent is cheap.
fn root_over(layer: &[Hash], filler: Hash) -> Hash {
    let mut known: HashMap<(Hash, Hash), Hash> = HashMap::new();
    let mut row = layer.to_vec();
    row.resize(row.len().next_power_of_two(), filler);
    while row.len() > 1 {
        let parent = |two: &[Hash]| *known.entry((two[0], two[1])).or_insert_with(|| pair(&two[0], &two[1]));
        row = row.chunks_exact(2).map(parent).collect();
    }
    row[0]
}

/// Files of three pieces of 16 MiB: the most layers, each filled up with a padding value that takes ten hashes to work out.
fn many_layers() -> Vec<u8> {
    let filler = padding(10);
    let mut layers = BTreeMap::new();
    let (mut files, mut size) = (Vec::new(), torrent(b"", b"de", 1 << 24, b"de").len());
    for number in 0.. {
        let layer = [[1; 32], [2; 32], random_root(number)];
        let root = root_over(&layer, filler);
        let entry = [name(number), file(3 << 24, &root)].concat();
        let value = string(&layer.concat());
        size += entry.len() + string(&root).len() + value.len();
        if size > LARGEST_TORRENT {
            break;
        }
        files.extend(entry);
        layers.insert(root, value);
    }
    let layers: Vec<u8> = layers.iter().flat_map(|(root, value)| [&string(root)[..], value].concat()).collect();
    torrent(b"", &dictionary(&files), 1 << 24, &dictionary(&layers))
}

/// One file with the longest layer: more than 32,000 pairs to hash.
fn one_layer() -> Vec<u8> {
    let pieces = 32_750;
    let layer = vec![[3; 32]; pieces];
    let root = root_over(&layer, padding(0));
    let tree = dictionary(&[string(b"a"), file(16384 * pieces as u64, &root)].concat());
    torrent(b"", &tree, 16384, &dictionary(&[string(&root), string(&layer.concat())].concat()))
}

/// A tree of one file, to go with an unknown key.
fn one_file() -> Vec<u8> {
    dictionary(&[string(b"a"), file(1, &[1; 32])].concat())
}

/// Half a million values: no value is shorter than the two bytes of an empty string.
fn small_values() -> Vec<u8> {
    let with = |values: &[u8]| torrent(&[b"0:l", values, b"e"].concat(), &one_file(), 16384, b"de");
    with(&as_many_as_fit(with(b"").len(), |_| b"0:".to_vec()))
}

/// 150,000 keys to be put in order.
fn small_keys() -> Vec<u8> {
    let with = |entries: &[u8]| torrent(&[b"0:d", entries, b"e"].concat(), &one_file(), 16384, b"de");
    with(&as_many_as_fit(with(b"").len(), |number| [&string(&number.to_be_bytes()[1..])[..], b"0:"].concat()))
}

/// A hybrid with this file tree, these entries of `files` and so many pieces of 16 KiB.
fn hybrid(tree: &[u8], entries: &[u8], pieces: usize) -> Vec<u8> {
    let pieces = string(&vec![7; 20 * pieces]);
    let behind: [&[u8]; 4] = [b"e12:meta versioni2e4:name1:x12:piece lengthi16384e6:pieces", &pieces, b"e", b""];
    let info = [b"d9:file tree", tree, b"5:filesl", entries, &behind.concat()].concat();
    [b"d4:info", &info[..], b"12:piece layersdee"].concat()
}

/// An entry of `files` behind the elements before its name, encoded, and padding up to the next piece.
fn v1_entry(before: &[u8], name: &[u8], length: u64) -> Vec<u8> {
    let length_text = length.to_string();
    let entry = [b"d6:lengthi", length_text.as_bytes(), b"e4:pathl", before, name, b"ee"].concat();
    let gap = (length.next_multiple_of(16384) - length).to_string();
    let pad = [b"d4:attr1:p6:lengthi", gap.as_bytes(), b"e4:pathl4:.pad", &string(gap.as_bytes()), b"ee"].concat();
    if gap == "0" {
        entry
    } else {
        [entry, pad].concat()
    }
}

/// 100 folders of 100 files; two of three files are empty, or both halves would not go into 1 MiB.
fn ten_thousand_in_both_halves() -> Vec<u8> {
    let (mut tree, mut entries, mut pieces) = (Vec::new(), Vec::new(), 0);
    for folder in 0..100u32 {
        let folder_name = string(format!("{folder:02}").as_bytes());
        let mut files = Vec::new();
        for in_folder in 0..100 {
            let number = 100 * folder + in_folder;
            let name = string(format!("{number:05}").as_bytes());
            let length = if in_folder % 3 == 0 { 10000 + u64::from(number * 7 % 6384) } else { 0 };
            let node = if length == 0 { b"d0:d6:lengthi0eee".to_vec() } else { file(length, &random_root(number)) };
            files.extend([&name[..], &node].concat());
            entries.extend(v1_entry(&folder_name, &name, length));
            pieces += (length > 0) as usize;
        }
        tree.extend([&folder_name[..], &dictionary(&files)].concat());
    }
    hybrid(&dictionary(&tree), &entries, pieces)
}

/// The most files of one byte in both halves, each with so many path elements, all but the last alike.
fn hybrid_files(elements: usize) -> Vec<u8> {
    let (before, behind) = (b"1:ad".repeat(elements - 1), b"e".repeat(elements - 1));
    let path = b"1:a".repeat(elements - 1);
    let whole =
        |tree: &[u8], entries: &[u8], pieces| hybrid(&dictionary(&[&before, tree, &behind].concat()), entries, pieces);
    let (mut tree, mut entries, mut pieces) = (Vec::new(), Vec::new(), 0);
    // A few bytes for the digits of the size of `pieces`.
    let mut size = whole(b"", b"", 0).len() + 6;
    loop {
        let name = name(pieces as u32);
        let node = [&name[..], &file(1, &random_root(pieces as u32))].concat();
        let entry = v1_entry(&path, &name, 1);
        size += node.len() + entry.len() + 20;
        if size > LARGEST_TORRENT {
            return whole(&tree, &entries, pieces);
        }
        tree.extend(node);
        entries.extend(entry);
        pieces += 1;
    }
}

/// One file, and behind it as much padding of no bytes as there is room for.
fn hybrid_padding() -> Vec<u8> {
    let with = |entries: &[u8]| hybrid(&one_file(), &[&v1_entry(b"", b"1:a", 1)[..], entries].concat(), 1);
    with(&as_many_as_fit(with(b"").len(), |_| b"d4:attr1:p6:lengthi0ee".to_vec()))
}

/// A length prefix of a million digits.
fn huge_prefix() -> Vec<u8> {
    [&b"d"[..], &vec![b'9'; LARGEST_TORRENT - 1]].concat()
}

#[cfg(test)]
mod tests {
    use super::*;
    use reference::torrent::contents;

    #[test]
    fn shapes_are_what_they_say() {
        for shape in &ALL {
            let torrent = (shape.make)();
            let read = contents(&torrent);
            assert_eq!(read.as_ref().map_or_else(|number| *number, |_| DONE), shape.number, "{}", shape.name);
            println!(
                "{:<12} {:>7} bytes, {:>5} files",
                shape.name,
                torrent.len(),
                read.map_or(0, |all| all.files.len())
            );
            let least = if [ORDINARY, HYBRID].contains(&shape.name) { 770_000 } else { LARGEST_TORRENT - 500 };
            assert!((least..=LARGEST_TORRENT).contains(&torrent.len()), "{}", shape.name);
        }
    }
}
