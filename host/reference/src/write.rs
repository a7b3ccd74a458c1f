//! Writing a v2 torrent: request 4 of document 02.
//!
//! The list is read to its content; where paths and layers stand in the text, and in which order, is then forgotten. Each
//! number is looked for in the whole content before the next one, so that the lowest wins. The tree is built of maps.

use crate::limits::{BLOCK, LARGEST_TORRENT, LEVELS, LONGEST_FILE, WRITE_RECORD};
use crate::number::*;
use crate::sha256::Hash;
use crate::torrent::{element_right, layer_differs};
use crate::tree::{padding, piece_length_in_range, Facts};
use crate::Answer;
use std::collections::{BTreeMap, HashMap, HashSet};

/// The levels of a file without path elements: outer dictionary, `info`, `file tree`, its properties.
const LEVELS_BESIDE_THE_PATH: usize = 4;

/// What the list says of one file.
#[derive(Clone, Debug, PartialEq, Eq)]
pub struct Item<'a> {
    pub path: Vec<&'a [u8]>,
    pub length: u64,
    pub root: Hash,
    pub layer: &'a [u8],
}

/// The content of a list, or nothing if it isn't in its form.
pub fn content<'a>(list: &[u8], text: &'a [u8]) -> Option<Vec<Item<'a>>> {
    if !list.len().is_multiple_of(WRITE_RECORD) {
        return None;
    }
    list.chunks_exact(WRITE_RECORD).map(|record| item_of(record, text)).collect()
}

/// Of a record: length (8), root (32), start and size of the layer and of the path (4 each).
fn item_of<'a>(record: &[u8], text: &'a [u8]) -> Option<Item<'a>> {
    let length = u64::from_be_bytes(record[..8].try_into().unwrap());
    if length >= 1 << 63 {
        return None;
    }
    let layer = part(&record[40..48], text)?;
    let path = elements(part(&record[48..], text)?)?;
    Some(Item { path, length, root: record[8..40].try_into().unwrap(), layer })
}

fn word(bytes: &[u8]) -> usize {
    u32::from_be_bytes(bytes.try_into().unwrap()) as usize
}

fn part<'a>(place: &[u8], text: &'a [u8]) -> Option<&'a [u8]> {
    let (start, size) = (word(&place[..4]), word(&place[4..]));
    text.get(start..start + size)
}

/// A path's elements, each a size of 4 bytes and so many bytes, with nothing left over.
fn elements(mut path: &[u8]) -> Option<Vec<&[u8]>> {
    let mut elements = Vec::new();
    while !path.is_empty() {
        let size = word(path.get(..4)?);
        elements.push(path.get(4..4 + size)?);
        path = &path[4 + size..];
    }
    Some(elements)
}

impl<'a> Item<'a> {
    fn facts(&self, piece_length: u64) -> Facts {
        Facts { length: self.length, piece_length, root: self.root }
    }

    /// The bytes that its layer has to have: 32 for each piece of a file longer than the piece length.
    fn layer_size(&self, piece_length: u64) -> u64 {
        if self.length > piece_length {
            32 * self.facts(piece_length).pieces()
        } else {
            0
        }
    }

    /// The empty key and the file's properties, as they stand in the node that the path leads to.
    fn properties(&self) -> Vec<u8> {
        let length = [b"6:length", &integer(self.length)[..]].concat();
        let root = if self.length == 0 { Vec::new() } else { [b"11:pieces root", &string(&self.root)[..]].concat() };
        [b"0:d", &length[..], &root, b"e"].concat()
    }
}

fn string(content: &[u8]) -> Vec<u8> {
    [content.len().to_string().as_bytes(), b":", content].concat()
}

fn integer(amount: u64) -> Vec<u8> {
    format!("i{amount}e").into_bytes()
}

/// Everything of a torrent but its tree and layers.
fn frame(piece_length: u64, name: &[u8], tree: &[u8], layers: &[u8]) -> Vec<u8> {
    let info = [b"d9:file tree", tree, b"12:meta versioni2e4:name", &string(name), b"12:piece length"].concat();
    [b"d4:info", &info[..], &integer(piece_length), b"e12:piece layers", layers, b"e"].concat()
}

/// One layer for each root that a layer is given for, the least by its bytes where there are several.
fn layers<'a>(items: &[Item<'a>]) -> BTreeMap<Hash, &'a [u8]> {
    let mut layers = BTreeMap::new();
    for item in items.iter().filter(|item| !item.layer.is_empty()) {
        let layer = layers.entry(item.root).or_insert(item.layer);
        *layer = item.layer.min(*layer);
    }
    layers
}

/// The bytes of the torrent with these entries: the properties of each file, as often as it stands in the list, and each node
/// that a path leads to or through, once.
pub fn size(items: &[Item], piece_length: u64, name: &[u8]) -> u128 {
    let mut nodes: HashMap<(usize, &[u8]), usize> = HashMap::new();
    let mut size = frame(piece_length, name, b"de", b"de").len() as u128;
    for item in items {
        let mut at = 0;
        for element in &item.path {
            let next = nodes.len() + 1;
            at = *nodes.entry((at, element)).or_insert(next);
        }
        size += item.properties().len() as u128;
    }
    size += nodes.keys().map(|(_, element)| (string(element).len() + 2) as u128).sum::<u128>();
    size + layers(items).values().map(|layer| (string(&[0; 32]).len() + string(layer).len()) as u128).sum::<u128>()
}

/// A node of the tree: the files whose path ends here, and what stands below. In a torrent that is written a node has one
/// file and nothing below, or no file.
#[derive(Default)]
struct Node<'a> {
    files: Vec<Vec<u8>>,
    below: BTreeMap<&'a [u8], Node<'a>>,
}

impl<'a> Node<'a> {
    fn add(&mut self, path: &[&'a [u8]], properties: Vec<u8>) {
        match path {
            [] => self.files.push(properties),
            [first, rest @ ..] => self.below.entry(first).or_default().add(rest, properties),
        }
    }

    fn encoded(&self) -> Vec<u8> {
        let below = self.below.iter().flat_map(|(name, node)| [string(name), node.encoded()].concat());
        [b"d", &self.files.concat()[..], &below.collect::<Vec<u8>>(), b"e"].concat()
    }
}

/// The torrent with these entries. It nests as deep as the paths do.
pub fn torrent_of(items: &[Item], piece_length: u64, name: &[u8]) -> Vec<u8> {
    let mut tree = Node::default();
    for item in items {
        tree.add(&item.path, item.properties());
    }
    let layers = layers(items).into_iter().flat_map(|(root, layer)| [string(&root), string(layer)].concat());
    let layers = [b"d", &layers.collect::<Vec<u8>>()[..], b"e"].concat();
    frame(piece_length, name, &tree.encoded(), &layers)
}

/// 25 for an item by itself.
fn is_wrong(item: &Item) -> bool {
    item.path.is_empty()
        || !item.path.iter().all(|element| element_right(element))
        || item.length > LONGEST_FILE
        || item.length == 0 && item.root != [0; 32]
}

/// 25 for two items: a path that another has too, or that leads through another's file.
fn paths_meet(items: &[Item]) -> bool {
    let mut files: HashSet<&[&[u8]]> = HashSet::new();
    if !items.iter().all(|item| files.insert(&item.path)) {
        return true;
    }
    items.iter().any(|item| (1..item.path.len()).any(|size| files.contains(&item.path[..size])))
}

/// Two non-empty files of one root that something else tells apart.
fn one_root_two<'a, T: PartialEq>(items: &[Item<'a>], of: impl Fn(&Item<'a>) -> T) -> bool {
    let mut by_root: HashMap<Hash, T> = HashMap::new();
    items
        .iter()
        .filter(|item| item.length > 0)
        .any(|item| *by_root.entry(item.root).or_insert_with(|| of(item)) != of(item))
}

/// 28 for an item by itself: its layer doesn't give its root.
fn has_other_root(item: &Item, piece_length: u64) -> bool {
    let filler = padding((piece_length / BLOCK).trailing_zeros() as u64);
    item.length > piece_length && layer_differs(item.layer, &item.root, filler)
}

/// The lowest number of 19 and 21 to 28 that holds of a content, or 0. 22 and 23 hold of none.
pub fn number_of(items: &[Item], piece_length: u64, name: &[u8]) -> u32 {
    if size(items, piece_length, name) > LARGEST_TORRENT as u128 {
        TORRENT_TOO_LARGE
    } else if items.iter().any(|item| item.path.len() + LEVELS_BESIDE_THE_PATH > LEVELS as usize) {
        NESTED_TOO_DEEPLY
    } else if !piece_length_in_range(piece_length) {
        PIECE_LENGTH_OUT_OF_RANGE
    } else if items.is_empty() || items.iter().any(is_wrong) || paths_meet(items) {
        WRONG_TREE
    } else if one_root_two(items, |item| item.length) {
        TWO_LENGTHS
    } else if items.iter().any(|item| item.layer.len() as u64 != item.layer_size(piece_length)) {
        LAYERS_AMISS
    } else if one_root_two(items, |item| item.layer) || items.iter().any(|item| has_other_root(item, piece_length)) {
        LAYER_DIFFERS
    } else {
        DONE
    }
}

/// The torrent of a list into `out`; the count is its bytes.
pub fn torrent_write(list: &[u8], text: &[u8], piece_length: u64, name: &[u8], out: &mut [u8]) -> Answer {
    let Some(items) = content(list, text) else { return Answer::refused(WRONG_SIZE) };
    let number = number_of(&items, piece_length, name);
    if number != DONE {
        return Answer::refused(number);
    }
    let torrent = torrent_of(&items, piece_length, name);
    let Some(room) = out.get_mut(..torrent.len()) else { return Answer::refused(NO_ROOM) };
    room.copy_from_slice(&torrent);
    Answer::done(torrent.len() as u64)
}

#[cfg(test)]
mod tests {
    use super::*;
    use crate::sha256::pair;
    use crate::torrent::contents;

    /// A file of a list before it is written down.
    #[derive(Clone, Debug)]
    struct Entry {
        path: Vec<Vec<u8>>,
        length: u64,
        root: Hash,
        layer: Vec<u8>,
    }

    fn entry(path: &str, length: u64, root: Hash, layer: &[u8]) -> Entry {
        let path = path.split('/').map(|element| element.as_bytes().to_vec()).collect();
        Entry { path, length, root, layer: layer.to_vec() }
    }

    /// A file of three pieces of 16384 bytes, with the right layer for them.
    fn long(path: &str, byte: u8) -> Entry {
        let root = pair(&pair(&[byte; 32], &[6; 32]), &pair(&[7; 32], &[0; 32]));
        entry(path, 40000, root, &[[byte; 32], [6; 32], [7; 32]].concat())
    }

    fn path_bytes(path: &[Vec<u8>]) -> Vec<u8> {
        path.iter().flat_map(|element| [&(element.len() as u32).to_be_bytes()[..], element].concat()).collect()
    }

    /// List and text, with so many bytes that belong to nobody before each part.
    fn written_down(entries: &[Entry], between: usize) -> (Vec<u8>, Vec<u8>) {
        let (mut list, mut text) = (Vec::new(), Vec::new());
        for entry in entries {
            let mut place = |part: &[u8]| {
                text.extend(vec![0x55; between]);
                let start = text.len() as u32;
                text.extend_from_slice(part);
                [start.to_be_bytes(), (part.len() as u32).to_be_bytes()].concat()
            };
            let (layer, path) = (place(&entry.layer), place(&path_bytes(&entry.path)));
            list.extend([&entry.length.to_be_bytes()[..], &entry.root, &layer, &path].concat());
        }
        (list, text)
    }

    const ROOM: usize = LARGEST_TORRENT + 1;

    fn write_with(entries: &[Entry], piece_length: u64, name: &[u8], room: usize) -> (Answer, Vec<u8>) {
        let (list, text) = written_down(entries, entries.len() % 3);
        let mut out = vec![0xaa; room];
        let answer = torrent_write(&list, &text, piece_length, name, &mut out);
        let kept = answer.count as usize;
        assert!(out[kept..].iter().all(|byte| *byte == 0xaa), "bytes behind the torrent");
        out.truncate(kept);
        (answer, out)
    }

    fn write(entries: &[Entry]) -> (Answer, Vec<u8>) {
        write_with(entries, 16384, b"x", ROOM)
    }

    fn number(entries: &[Entry]) -> u32 {
        write(entries).0.number
    }

    /// What is read of a torrent, as entries of a list.
    fn read_back(torrent: &[u8]) -> Result<Vec<Entry>, u32> {
        let entry_of = |file: crate::torrent::Listed| Entry {
            path: file.path.into_iter().map(|part| torrent[part].to_vec()).collect(),
            length: file.length,
            root: file.root,
            layer: torrent[file.layer].to_vec(),
        };
        contents(torrent).map(|all| all.files.into_iter().map(entry_of).collect())
    }

    fn in_tree_order(entries: &[Entry]) -> Vec<Entry> {
        let mut entries = entries.to_vec();
        entries.sort_by(|one, other| one.path.cmp(&other.path));
        entries
    }

    fn shown(entries: &[Entry]) -> Vec<String> {
        entries.iter().map(|entry| format!("{entry:?}")).collect()
    }

    #[test]
    fn a_torrent_is_written() {
        let entries = [entry("a.txt", 0, [0; 32], b""), entry("a/b", 7, [1; 32], b""), long("c", 5)];
        let (answer, torrent) = write(&entries);
        let root = entries[2].root;
        let expected = [
            &b"d4:infod9:file treed1:ad1:bd0:d6:lengthi7e11:pieces root32:"[..],
            &[1; 32],
            b"eee5:a.txtd0:d6:lengthi0eee1:cd0:d6:lengthi40000e11:pieces root32:",
            &root,
            b"eee12:meta versioni2e4:name1:x12:piece lengthi16384ee12:piece layersd32:",
            &root,
            b"96:",
            &entries[2].layer,
            b"ee",
        ];
        assert_eq!((answer, &torrent), (Answer::done(torrent.len() as u64), &expected.concat()));
        assert_eq!(shown(&read_back(&torrent).unwrap()), shown(&in_tree_order(&entries)));
        for room in [torrent.len(), torrent.len() + 1] {
            assert_eq!(write_with(&entries, 16384, b"x", room).0.number, DONE);
        }
        for room in [torrent.len() - 1, 0] {
            assert_eq!(write_with(&entries, 16384, b"x", room).0.number, NO_ROOM);
        }
    }

    #[test]
    fn the_form_of_a_list() {
        let (list, text) = written_down(&[entry("a/bc", 7, [1; 32], b"")], 0);
        let number = |list: &[u8], text: &[u8]| torrent_write(list, text, 16384, b"x", &mut [0; 999]).number;
        assert_eq!(number(&list, &text), DONE);
        assert_eq!(number(&list[1..], &text), WRONG_SIZE);
        assert_eq!(number(&[&list[..], b"x"].concat(), &text), WRONG_SIZE);
        assert_eq!(number(&list, &text[1..]), WRONG_SIZE);
        let with = |at: usize, byte: u8| {
            let mut list = list.clone();
            list[at] = byte;
            list
        };
        // The path is `0001a0002bc`: 11 bytes from 0.
        assert_eq!(list[40..], [0, 0, 0, 0, 0, 0, 0, 0, 0, 0, 0, 0, 0, 0, 0, 11]);
        for (at, byte, expected) in [
            (0, 0x80, WRONG_SIZE),
            (0, 0x7f, WRONG_TREE),
            (43, 11, DONE),
            (43, 12, WRONG_SIZE),
            (47, 11, LAYERS_AMISS),
            (47, 12, WRONG_SIZE),
            (44, 0xff, WRONG_SIZE),
            (51, 1, WRONG_SIZE),
            (55, 10, WRONG_SIZE),
            (55, 5, DONE),
            (55, 4, WRONG_SIZE),
            (55, 3, WRONG_SIZE),
            (55, 0, WRONG_TREE),
        ] {
            assert_eq!(number(&with(at, byte), &text), expected, "byte {at} is {byte}");
        }
        let mut far = list.clone();
        far[40..56].fill(0xff);
        assert_eq!(number(&far, &text), WRONG_SIZE);
        assert_eq!(number(b"", b""), WRONG_TREE);
    }

    #[test]
    fn each_number() {
        let good = || vec![entry("a", 1, [1; 32], b""), long("b", 5), entry("d/e", 0, [0; 32], b"")];
        let with = |more: Entry| [good(), vec![more]].concat();
        assert_eq!(number(&good()), DONE);
        // 25
        assert_eq!(number(&[]), WRONG_TREE);
        for path in ["a", "a/b", "d", "", "c/", "/c", "c//e", ".", "c/..", "./c", "c/../e", "c\0"] {
            assert_eq!(number(&with(entry(path, 1, [2; 32], b""))), WRONG_TREE, "{path}");
        }
        assert_eq!(number(&with(Entry { path: Vec::new(), ..entry("c", 1, [2; 32], b"") })), WRONG_TREE);
        assert_eq!(number(&with(entry("c", 0, [1; 32], b""))), WRONG_TREE);
        assert_eq!(number(&with(entry("c", LONGEST_FILE + 1, [2; 32], b""))), WRONG_TREE);
        // 26: one root, two lengths; an empty file has no root.
        assert_eq!(number(&with(entry("c", 2, [1; 32], b""))), TWO_LENGTHS);
        assert_eq!(number(&with(entry("c", 2, [0; 32], b""))), DONE);
        // 27
        assert_eq!(number(&with(entry("c", 2, [2; 32], &[9; 32]))), LAYERS_AMISS);
        assert_eq!(number(&with(entry("c", 0, [0; 32], &[9; 32]))), LAYERS_AMISS);
        assert_eq!(number(&with(entry("c", 16385, [2; 32], b""))), LAYERS_AMISS);
        for size in [95, 97, 64, 0] {
            let twin = Entry { layer: vec![5; size], ..long("c", 5) };
            assert_eq!(number(&with(twin)), LAYERS_AMISS);
        }
        // 28
        assert_eq!(number(&with(Entry { root: [2; 32], ..long("c", 5) })), LAYER_DIFFERS);
        assert_eq!(number(&with(Entry { layer: vec![5; 96], ..long("c", 5) })), LAYER_DIFFERS);
        // 24 and the one before it
        for piece_length in [0, 1, 8192, 16383, 16385, 1 << 25, (1 << 32) + 16384, 1 << 63, u64::MAX] {
            assert_eq!(write_with(&[], piece_length, b"x", 0).0.number, PIECE_LENGTH_OUT_OF_RANGE);
        }
        let deep = |elements: usize| [entry(&vec!["a"; elements].join("/"), 1, [1; 32], b"")];
        assert_eq!((number(&deep(28)), number(&deep(29))), (DONE, NESTED_TOO_DEEPLY));
        assert_eq!(write_with(&deep(29), 0, b"x", 0).0.number, NESTED_TOO_DEEPLY);
        assert_eq!(number(&deep(200_000)), NESTED_TOO_DEEPLY);
        assert_eq!(number(&deep(300_000)), TORRENT_TOO_LARGE);
    }

    #[test]
    fn a_twin_shares_its_layer() {
        let (_, alone) = write(&[long("b", 5)]);
        let (answer, torrent) = write(&[long("c", 5), long("b", 5)]);
        let size_of_a_node = long("c", 5).layer.len();
        assert_eq!(answer.number, DONE);
        assert_eq!(torrent.windows(96).filter(|window| *window == &long("b", 5).layer[..]).count(), 1);
        assert!(torrent.len() < alone.len() + size_of_a_node);
        assert_eq!(shown(&read_back(&torrent).unwrap()), shown(&[long("b", 5), long("c", 5)]));
    }

    /// 19 at its very byte: of a name, of repeated paths, of layers of which only the least counts.
    #[test]
    fn the_largest() {
        let entries = [entry("a/b", 1, [1; 32], b""), long("a/c", 5)];
        let rest = write_with(&entries, 16384, b"", ROOM).1.len() - 2;
        let name = vec![b'n'; LARGEST_TORRENT - rest - "1000000:".len()];
        let (answer, torrent) = write_with(&entries, 16384, &name, ROOM);
        assert_eq!((answer.number, torrent.len()), (DONE, LARGEST_TORRENT));
        assert_eq!(write_with(&entries, 16384, &[&name[..], b"n"].concat(), ROOM).0.number, TORRENT_TOO_LARGE);
        let named = |entries: &[Entry], less: usize| write_with(entries, 16384, &name[less..], ROOM).0.number;
        // Again: its properties count once more, its name and directory don't.
        let again = [&entries[..], &entries[..1]].concat();
        let file = "0:d6:lengthi1e11:pieces root32:e".len() + 32;
        assert_eq!((named(&again, file), named(&again, file - 1)), (WRONG_TREE, TORRENT_TOO_LARGE));
        // A twin with the least layer: its size counts, and the other's doesn't.
        let twin = [&entries[..], &[Entry { layer: vec![0; 100], ..long("a/d", 5) }]].concat();
        let file = "1:dd0:d6:lengthi40000e11:pieces root32:ee".len() + 32;
        let more = "100:".len() + 100 - "96:".len() - 96;
        assert_eq!((named(&twin, file + more), named(&twin, file + more - 1)), (LAYERS_AMISS, TORRENT_TOO_LARGE));
    }

    struct Random(u64);

    impl Random {
        fn below(&mut self, bound: u64) -> u64 {
            self.0 = self.0.wrapping_mul(6364136223846793005).wrapping_add(1442695040888963407);
            (self.0 >> 33) % bound
        }

        fn path(&mut self) -> Vec<Vec<u8>> {
            let elements = if self.below(150) == 0 { 27 + self.below(4) } else { 1 + self.below(3) };
            (0..elements).map(|_| self.element()).collect()
        }

        fn element(&mut self) -> Vec<u8> {
            let size = if self.below(60) == 0 { 0 } else { 1 + self.below(2) };
            (0..size).map(|_| b"ab-\xffab-\xff."[self.below(9) as usize]).collect()
        }

        fn file(&mut self) -> Entry {
            let path = self.path();
            let byte = self.below(200) as u8;
            let entry = match self.below(8) {
                0 => entry("", 0, [0; 32], b""),
                1..=3 => long("", byte),
                _ => entry("", 1 + self.below(16384), [byte; 32], b""),
            };
            self.damaged(Entry { path, ..entry })
        }

        fn damaged(&mut self, entry: Entry) -> Entry {
            match self.below(120) {
                0 => Entry { root: [9; 32], ..entry },
                1 => Entry { layer: vec![1; 32 * self.below(4) as usize], ..entry },
                2 => Entry { length: self.below(50000), ..entry },
                3 => Entry { length: 1 << (20 + self.below(20)), ..entry },
                4 => Entry { path: Vec::new(), ..entry },
                _ => entry,
            }
        }

        fn list(&mut self) -> Vec<Entry> {
            let files = if self.below(50) == 0 { 0 } else { 1 + self.below(6) };
            (0..files).map(|_| self.file()).collect()
        }
    }

    /// The lists of which the number is the reader's number of the torrent with these entries.
    fn is_told_by_the_reader(entries: &[Entry]) -> bool {
        let paths: HashSet<&Vec<Vec<u8>>> = entries.iter().map(|entry| &entry.path).collect();
        let is_plain = |entry: &Entry| {
            !entry.path.is_empty()
                && entry.path.iter().all(|element| !element.is_empty())
                && (entry.length > 0 || entry.root == [0; 32] && entry.layer.is_empty())
        };
        let has_two = entries.iter().any(|one| {
            let mut others =
                entries.iter().filter(|other| one.length > 0 && other.length > 0 && one.root == other.root);
            others.any(|other| one.layer != other.layer)
        });
        paths.len() == entries.len() && entries.iter().all(is_plain) && !has_two
    }

    #[test]
    fn generated_lists() {
        let mut random = Random(1);
        let mut seen = [0; 32];
        for _ in 0..20000 {
            let entries = random.list();
            let piece_length = if random.below(40) == 0 { 1 << random.below(64) } else { 16384 };
            let (answer, torrent) = write_with(&entries, piece_length, b"name", 4096);
            seen[answer.number as usize] += 1;
            let mut turned = entries.clone();
            turned.reverse();
            let at = random.below(1 + entries.len() as u64) as usize % entries.len().max(1);
            turned.rotate_left(at);
            assert_eq!(write_with(&turned, piece_length, b"name", 4096), (answer, torrent.clone()));
            let (list, text) = written_down(&entries, 2);
            let items = content(&list, &text).unwrap();
            let whole = torrent_of(&items, piece_length, b"name");
            assert_eq!(whole.len() as u128, size(&items, piece_length, b"name"));
            if is_told_by_the_reader(&entries) && piece_length < 1 << 63 {
                assert_eq!(answer.number, contents(&whole).map_or_else(|number| number, |_| DONE), "{entries:?}");
            }
            if answer.number == DONE {
                assert_eq!(torrent, whole);
                assert_eq!(contents(&torrent).unwrap().piece_length, piece_length);
                assert_eq!(shown(&read_back(&torrent).unwrap()), shown(&in_tree_order(&entries)));
            }
        }
        for number in [0, 21, 24, 25, 26, 27, 28] {
            assert!(seen[number] > 20, "{number}: {}", seen[number]);
        }
        assert_eq!(seen[20] + seen[22] + seen[23], 0);
    }
}
