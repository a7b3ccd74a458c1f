//! Reading a v2 torrent: numbers 19 to 29. Section "The torrent" of document 01. What 31 is about is in `hybrid`.
//!
//! The torrent is parsed once, to a value. Then each of 22 to 28 is looked for in the whole of it before the next one, so
//! that the lowest number wins. The benchmarks call this reader 1.00: roots are found by hashing, every layer is worked out
//! once.

use crate::bencode::{find, read as read_bencoding, Value};
use crate::hybrid::{v1_half, V1Half};
use crate::limits::{BLOCK, ELEMENTS, LARGEST_TORRENT, LONGEST_FILE, RECORD};
use crate::number::*;
use crate::sha256::{pair, sha256, Hash};
use crate::tree::{padding, piece_length_in_range, Facts};
use crate::Answer;
use std::collections::{HashMap, HashSet};
use std::ops::Range;

type Entries = [(Range<usize>, Value)];

/// What a torrent says as a whole.
#[derive(Clone, Copy, Debug, PartialEq, Eq)]
pub struct Torrent {
    pub number: u32,
    pub info_hash: Hash,
    pub piece_length: u64,
    pub files: u64,
}

/// One file. The layer is a part of the torrent bytes; 0 0 if it has none.
#[derive(Clone, Copy, Debug, PartialEq, Eq)]
pub struct File {
    pub number: u32,
    pub length: u64,
    pub root: Hash,
    pub elements: u64,
    pub layer_start: u64,
    pub layer_size: u64,
}

/// A part of the torrent bytes.
#[derive(Clone, Copy, Debug, PartialEq, Eq)]
pub struct Part {
    pub number: u32,
    pub start: u64,
    pub size: u64,
}

/// A file as its tree and the piece layers give it.
#[derive(Clone, Debug, PartialEq, Eq)]
pub struct Listed {
    pub length: u64,
    pub root: Hash,
    pub path: Vec<Range<usize>>,
    pub layer: Range<usize>,
}

/// Everything a good torrent says.
#[derive(Clone, Debug, PartialEq, Eq)]
pub struct Contents {
    pub info_hash: Hash,
    pub piece_length: u64,
    pub files: Vec<Listed>,
    /// The v1 half of a hybrid.
    pub half: Option<V1Half>,
}

/// The values that 22 is about, each of its type.
struct Fields<'a> {
    info: &'a Value,
    file_tree: &'a Entries,
    piece_length: i64,
    meta_version: i64,
    piece_layers: &'a Entries,
}

fn fields<'a>(torrent: &[u8], outer: &'a Value) -> Option<Fields<'a>> {
    let outer = outer.dictionary()?;
    let info = find(torrent, outer, b"info")?;
    let inside = info.dictionary()?;
    Some(Fields {
        info,
        file_tree: find(torrent, inside, b"file tree")?.dictionary()?,
        piece_length: find(torrent, inside, b"piece length")?.integer()?,
        meta_version: find(torrent, inside, b"meta version")?.integer()?,
        piece_layers: find(torrent, outer, b"piece layers")?.dictionary()?,
    })
}

/// The rule for an element of a path, of a file or a directory: else 25.
pub fn element_right(element: &[u8]) -> bool {
    !matches!(element, b"" | b"." | b"..") && !element.contains(&b'/') && !element.contains(&0)
}

/// Adds the files below a directory in tree order, or answers 25. The path so far leads to the directory.
fn add_files(
    torrent: &[u8],
    directory: &Entries,
    path: &mut Vec<Range<usize>>,
    files: &mut Vec<Listed>,
) -> Result<(), u32> {
    if directory.is_empty() {
        return Err(WRONG_TREE);
    }
    for (name, node) in directory {
        if !element_right(&torrent[name.clone()]) {
            return Err(WRONG_TREE);
        }
        path.push(name.clone());
        match node.dictionary().ok_or(WRONG_TREE)? {
            [(key, properties)] if key.is_empty() => files.push(file_of(torrent, properties, path.clone())?),
            inner => add_files(torrent, inner, path, files)?,
        }
        path.pop();
    }
    Ok(())
}

/// The file whose properties are the value of an empty key, or 25.
fn file_of(torrent: &[u8], properties: &Value, path: Vec<Range<usize>>) -> Result<Listed, u32> {
    let properties = properties.dictionary().ok_or(WRONG_TREE)?;
    let length = find(torrent, properties, b"length").and_then(Value::integer).ok_or(WRONG_TREE)?;
    let length = u64::try_from(length).map_err(|_| WRONG_TREE)?;
    if length > LONGEST_FILE {
        return Err(WRONG_TREE);
    }
    let root = find(torrent, properties, b"pieces root");
    let root = match (length, root) {
        (0, None) => [0; 32],
        (0, Some(_)) | (_, None) => return Err(WRONG_TREE),
        (_, Some(root)) => root_in(torrent, root).ok_or(WRONG_TREE)?,
    };
    Ok(Listed { length, root, path, layer: 0..0 })
}

fn root_in(torrent: &[u8], value: &Value) -> Option<Hash> {
    torrent[value.string()?].try_into().ok()
}

/// 26: two non-empty files with one root and different lengths.
fn has_two_lengths(files: &[Listed]) -> bool {
    let mut lengths = HashMap::new();
    let mut full = files.iter().filter(|file| file.length > 0);
    full.any(|file| *lengths.entry(&file.root).or_insert(file.length) != file.length)
}

fn facts(file: &Listed, piece_length: u64) -> Facts {
    Facts { length: file.length, piece_length, root: file.root }
}

/// Gives each file longer than the piece length its layer, or 27.
fn assign_layers(torrent: &[u8], layers: &Entries, piece_length: u64, files: &mut [Listed]) -> Result<(), u32> {
    let by_root: HashMap<&[u8], &Value> = layers.iter().map(|(key, value)| (&torrent[key.clone()], value)).collect();
    let mut found = HashSet::new();
    for file in files.iter_mut().filter(|file| file.length > piece_length) {
        let layer = by_root.get(&file.root[..]).and_then(|value| value.string()).ok_or(LAYERS_AMISS)?;
        found.insert(file.root);
        if layer.len() as u64 != 32 * facts(file, piece_length).pieces() {
            return Err(LAYERS_AMISS);
        }
        file.layer = layer;
    }
    // Files of one root share an entry. A key that was not found is the root of no such file.
    if found.len() == by_root.len() {
        Ok(())
    } else {
        Err(LAYERS_AMISS)
    }
}

/// The leaves over which a layer gives its root: behind its hashes it is filled up with the padding value of its layer.
fn filled_up(layer: &[u8], filler: Hash) -> Vec<Hash> {
    let mut row: Vec<Hash> = layer.chunks_exact(32).map(|hash| hash.try_into().unwrap()).collect();
    row.resize(row.len().next_power_of_two(), filler);
    row
}

/// The root of the tree over a row of 2^k hashes.
fn root_over(mut row: Vec<Hash>) -> Hash {
    while row.len() > 1 {
        row = row.chunks_exact(2).map(|children| pair(&children[0], &children[1])).collect();
    }
    row[0]
}

/// 28: a layer that doesn't give its root.
pub fn layer_differs(layer: &[u8], root: &Hash, filler: Hash) -> bool {
    root_over(filled_up(layer, filler)) != *root
}

/// Everything the torrent says, or the number it is refused with.
pub fn contents(torrent: &[u8]) -> Result<Contents, u32> {
    contents_by(torrent, sha256, root_over)
}

/// The same, with another function for SHA-256 and for the root over a row of 2^k hashes.
pub fn contents_by(
    torrent: &[u8],
    hash: impl Fn(&[u8]) -> Hash,
    root_over: impl Fn(Vec<Hash>) -> Hash,
) -> Result<Contents, u32> {
    if torrent.len() > LARGEST_TORRENT {
        return Err(TORRENT_TOO_LARGE);
    }
    let outer = read_bencoding(torrent)?;
    let fields = fields(torrent, &outer).ok_or(KEY_MISSING)?;
    if fields.meta_version != 2 {
        return Err(OTHER_VERSION);
    }
    let piece_length = u64::try_from(fields.piece_length).unwrap_or(0);
    if !piece_length_in_range(piece_length) {
        return Err(PIECE_LENGTH_OUT_OF_RANGE);
    }
    let mut files = Vec::new();
    add_files(torrent, fields.file_tree, &mut Vec::new(), &mut files)?;
    if has_two_lengths(&files) {
        return Err(TWO_LENGTHS);
    }
    assign_layers(torrent, fields.piece_layers, piece_length, &mut files)?;
    let filler = padding((piece_length / BLOCK).trailing_zeros() as u64);
    let differs = |file: &Listed| root_over(filled_up(&torrent[file.layer.clone()], filler)) != file.root;
    if files.iter().filter(|file| file.length > piece_length).any(differs) {
        return Err(LAYER_DIFFERS);
    }
    let half = v1_half(torrent, fields.info, &files, piece_length)?;
    Ok(Contents { info_hash: hash(&torrent[fields.info.part.clone()]), piece_length, files, half })
}

/// Info hash, piece length and file count.
pub fn torrent_read(torrent: &[u8]) -> Torrent {
    match contents(torrent) {
        Ok(all) => Torrent {
            number: DONE,
            info_hash: all.info_hash,
            piece_length: all.piece_length,
            files: all.files.len() as u64,
        },
        Err(number) => Torrent { number, info_hash: [0; 32], piece_length: 0, files: 0 },
    }
}

/// File number `file` in tree order.
pub fn torrent_file(torrent: &[u8], file: u64) -> File {
    contents(torrent).map_or_else(File::refused, |all| file_in(&all, file))
}

/// What `torrent_file` answers for a torrent with these contents.
pub fn file_in(all: &Contents, file: u64) -> File {
    usize::try_from(file).ok().and_then(|file| all.files.get(file)).map_or(File::refused(NO_SUCH_PART), File::of)
}

/// Path element number `element` of file number `file`.
pub fn torrent_path(torrent: &[u8], file: u64, element: u64) -> Part {
    contents(torrent).map_or_else(Part::refused, |all| path_in(&all, file, element))
}

/// What `torrent_path` answers for a torrent with these contents.
pub fn path_in(all: &Contents, file: u64, element: u64) -> Part {
    let found = usize::try_from(file).ok().and_then(|file| all.files.get(file));
    let found = found.and_then(|file| file.path.get(usize::try_from(element).ok()?));
    found.map_or(Part::refused(NO_SUCH_PART), |part| Part {
        number: DONE,
        start: part.start as u64,
        size: part.len() as u64,
    })
}

/// Every file in tree order as a record into `out`; the count is the bytes written.
pub fn torrent_list(torrent: &[u8], out: &mut [u8]) -> Answer {
    contents(torrent).map_or_else(Answer::refused, |all| list_in(&all, out))
}

/// What `torrent_list` answers and writes for a torrent with these contents.
pub fn list_in(all: &Contents, out: &mut [u8]) -> Answer {
    let Some(out) = out.get_mut(..all.files.len() * RECORD) else { return Answer::refused(NO_ROOM) };
    for (record, file) in out.chunks_exact_mut(RECORD).zip(&all.files) {
        record.copy_from_slice(&record_of(file));
    }
    Answer::done(out.len() as u64)
}

/// Length (8 bytes), root (32), layer's start and size (4 each), number of path elements (4), zero (4), then start and size
/// (4 each) of the path elements, zeros for those that it doesn't have. All big-endian.
fn record_of(file: &Listed) -> [u8; RECORD] {
    let word = |number: usize| (number as u32).to_be_bytes();
    let part = |part: &Range<usize>| [word(part.start), word(part.len())].concat();
    let mut bytes = [&file.length.to_be_bytes()[..], &file.root].concat();
    bytes.extend(part(&file.layer));
    bytes.extend(word(file.path.len()));
    bytes.extend(word(0));
    bytes.extend(file.path.iter().flat_map(part));
    bytes.extend((file.path.len()..ELEMENTS).flat_map(|_| [0; 8]));
    bytes.try_into().expect("a record's size")
}

impl File {
    fn of(listed: &Listed) -> File {
        File {
            number: DONE,
            length: listed.length,
            root: listed.root,
            elements: listed.path.len() as u64,
            layer_start: listed.layer.start as u64,
            layer_size: listed.layer.len() as u64,
        }
    }

    fn refused(number: u32) -> File {
        File { number, length: 0, root: [0; 32], elements: 0, layer_start: 0, layer_size: 0 }
    }
}

impl Part {
    fn refused(number: u32) -> Part {
        Part { number, start: 0, size: 0 }
    }
}

#[cfg(test)]
mod tests {
    use super::*;

    fn string(content: &[u8]) -> Vec<u8> {
        [content.len().to_string().as_bytes(), b":", content].concat()
    }

    /// A torrent with this file tree and these piece layers, both already encoded.
    fn torrent(tree: &[u8], layers: &[u8]) -> Vec<u8> {
        with_info(tree, b"i2e", b"i16384e", layers)
    }

    fn with_info(tree: &[u8], version: &[u8], piece_length: &[u8], layers: &[u8]) -> Vec<u8> {
        let info: [&[u8]; 7] =
            [b"d9:file tree", tree, b"12:meta version", version, b"4:name1:x12:piece length", piece_length, b"e"];
        [b"d4:info", &info.concat()[..], b"12:piece layers", layers, b"e"].concat()
    }

    /// An entry of a directory that is a file of this length, with a root of one byte 32 times.
    fn file(name: &str, length: i64, root: Option<u8>) -> Vec<u8> {
        let root = root.map_or(Vec::new(), |byte| [b"11:pieces root", &string(&[byte; 32])[..]].concat());
        let properties = [b"d0:d6:lengthi", length.to_string().as_bytes(), b"e", &root, b"ee"].concat();
        [string(name.as_bytes()), properties].concat()
    }

    fn directory(entries: &[Vec<u8>]) -> Vec<u8> {
        [b"d", &entries.concat()[..], b"e"].concat()
    }

    fn number(torrent: &[u8]) -> u32 {
        torrent_read(torrent).number
    }

    fn number_of_tree(tree: &[u8]) -> u32 {
        number(&torrent(tree, b"de"))
    }

    #[test]
    fn a_good_torrent_is_read() {
        let inner = [string(b"a"), directory(&[file("b", 7, Some(1))])].concat();
        let bytes = torrent(&directory(&[inner, file("a.txt", 0, None), file("c", 16384, Some(0))]), b"de");
        let read = torrent_read(&bytes);
        assert_eq!((read.number, read.piece_length, read.files), (0, 16384, 3));
        assert_eq!(read.info_hash, sha256(&bytes[7..bytes.len() - 18]));
        let first = torrent_file(&bytes, 0);
        assert_eq!((first.length, first.root, first.elements, first.layer_size), (7, [1; 32], 2, 0));
        let part = |file, element| {
            let part = torrent_path(&bytes, file, element);
            (part.number, bytes[part.start as usize..][..part.size as usize].to_vec())
        };
        assert_eq!(
            [part(0, 0), part(0, 1), part(1, 0)],
            [(0, b"a".to_vec()), (0, b"b".to_vec()), (0, b"a.txt".to_vec())]
        );
        assert_eq!([part(0, 2).0, part(3, 0).0, part(u64::MAX, 0).0], [NO_SUCH_PART; 3]);
        assert_eq!(torrent_file(&bytes, 1).root, [0; 32]);
        assert_eq!(torrent_file(&bytes, 3), File::refused(NO_SUCH_PART));
        assert_eq!(torrent_file(b"de", 99).number, KEY_MISSING);
    }

    #[test]
    fn the_list() {
        let inner = [string(b"a"), directory(&[file("b", 7, Some(1))])].concat();
        let bytes = torrent(&directory(&[inner, file("a.txt", 0, None)]), b"de");
        let mut out = [0xaa; 2 * RECORD + 1];
        assert_eq!(torrent_list(&bytes, &mut out[..2 * RECORD - 1]), Answer::refused(NO_ROOM));
        assert_eq!(torrent_list(b"de", &mut []), Answer::refused(KEY_MISSING));
        assert_eq!(out, [0xaa; 2 * RECORD + 1]);
        assert_eq!(torrent_list(&bytes, &mut out), Answer::done(2 * RECORD as u64));
        // `d4:infod9:file treed1:ad1:b`: `a` at 22, `b` at 26.
        let first = [0, 0, 0, 0, 0, 0, 0, 7].into_iter().chain([1; 32]).chain([0; 8]);
        let first = first.chain([0, 0, 0, 2, 0, 0, 0, 0]).chain([0, 0, 0, 22, 0, 0, 0, 1]);
        let first = first.chain([0, 0, 0, 26, 0, 0, 0, 1]).chain([0; 8 * 26]);
        assert_eq!(out[..RECORD], first.collect::<Vec<u8>>());
        assert_eq!(out[RECORD..][..56], [&[0; 48][..], &[0, 0, 0, 1, 0, 0, 0, 0]].concat());
        assert_eq!(out[2 * RECORD - 8..], [0, 0, 0, 0, 0, 0, 0, 0, 0xaa]);
    }

    #[test]
    fn sizes_and_levels() {
        let mut large = torrent(&directory(&[file("a", 1, Some(1))]), b"de");
        large.resize(LARGEST_TORRENT, b' ');
        assert_eq!(number(&large), NOT_STRICT);
        large.push(b' ');
        assert_eq!(number(&large), TORRENT_TOO_LARGE);
        let deep = |elements: usize| {
            let tree = (1..elements)
                .fold(directory(&[file("a", 1, Some(1))]), |below, _| directory(&[[string(b"a"), below].concat()]));
            torrent(&tree, b"de")
        };
        assert_eq!((number(&deep(28)), torrent_file(&deep(28), 0).elements), (0, 28));
        assert_eq!(number(&deep(29)), NESTED_TOO_DEEPLY);
    }

    #[test]
    fn missing_values_and_other_types() {
        let tree = directory(&[file("a", 1, Some(1))]);
        assert_eq!(number(b"de"), KEY_MISSING);
        assert_eq!(number(b"d4:infole12:piece layersdee"), KEY_MISSING);
        assert_eq!(number(&torrent(b"le", b"de")), KEY_MISSING);
        assert_eq!(number(&torrent(&tree, b"le")), KEY_MISSING);
        assert_eq!(number(&with_info(&tree, b"1:2", b"i16384e", b"de")), KEY_MISSING);
        assert_eq!(number(&with_info(&tree, b"i3e", b"5:16384", b"de")), KEY_MISSING);
        assert_eq!(number(&with_info(&tree, b"i3e", b"i5e", b"de")), OTHER_VERSION);
        for piece_length in ["i0e", "i-16384e", "i8192e", "i16385e", "i33554432e", "i4294983680e"] {
            assert_eq!(number(&with_info(b"de", b"i2e", piece_length.as_bytes(), b"de")), PIECE_LENGTH_OUT_OF_RANGE);
        }
    }

    #[test]
    fn wrong_trees() {
        let good = file("b", 1, Some(1));
        let wrong = [
            b"de".to_vec(),
            directory(&[b"1:ade".to_vec()]),
            directory(&[b"1:ale".to_vec()]),
            directory(&[b"1:ad0:i5ee".to_vec()]),
            directory(&[b"0:d6:lengthi0ee".to_vec()]),
            directory(&[[b"1:ad0:d6:lengthi0ee".to_vec(), good.clone(), b"e".to_vec()].concat()]),
            directory(&[file("a", 1, None)]),
            directory(&[file("a", 0, Some(1))]),
            directory(&[file("a", -1, Some(1))]),
            directory(&[file("a", LONGEST_FILE as i64 + 1, Some(1))]),
            directory(&[b"1:ad0:d6:length1:5ee".to_vec()]),
            directory(&[b"1:ad0:dee".to_vec()]),
            directory(&[b"1:ad0:d6:lengthi1e11:pieces root31:0123456789012345678901234567890ee".to_vec()]),
            directory(&[b"1:ad0:d6:lengthi0e11:pieces rootleee".to_vec()]),
        ];
        for tree in wrong {
            assert_eq!(number_of_tree(&tree), WRONG_TREE, "{}", String::from_utf8_lossy(&tree));
        }
        assert_eq!(number_of_tree(b"d1:ad0:d0:le6:lengthi0e1:xleeee"), 0);
    }

    #[test]
    fn same_roots() {
        assert_eq!(number_of_tree(&directory(&[file("a", 1, Some(1)), file("b", 2, Some(1))])), TWO_LENGTHS);
        assert_eq!(number_of_tree(&directory(&[file("a", 1, Some(1)), file("b", 1, Some(1))])), 0);
        assert_eq!(number_of_tree(&directory(&[file("a", 1, Some(0)), file("b", 0, None), file("c", 0, None)])), 0);
    }

    #[test]
    fn layers() {
        let layer = [[5; 32], [6; 32], [7; 32]].concat();
        let root = pair(&pair(&[5; 32], &[6; 32]), &pair(&[7; 32], &[0; 32]));
        let properties = [b"d6:lengthi40000e11:pieces root", &string(&root)[..], b"e"].concat();
        let tree = [b"d1:ad0:", &properties[..], b"ee"].concat();
        let with = |entries: &[(&[u8], Vec<u8>)]| {
            let entries = entries.iter().map(|(key, value)| [string(key), value.clone()].concat());
            torrent(&tree, &directory(&entries.collect::<Vec<_>>()))
        };
        let good = with(&[(&root, string(&layer))]);
        let found = torrent_file(&good, 0);
        assert_eq!((found.number, found.layer_size), (0, 96));
        assert_eq!(good[found.layer_start as usize..][..96], layer);
        assert_eq!(number(&with(&[])), LAYERS_AMISS);
        assert_eq!(number(&with(&[(&root, string(&layer[..64]))])), LAYERS_AMISS);
        assert_eq!(number(&with(&[(&root, b"le".to_vec())])), LAYERS_AMISS);
        assert_eq!(number(&with(&[(&root, string(&layer)), (&[255; 32], string(b""))])), LAYERS_AMISS);
        assert_eq!(number(&with(&[(&root, string(&[5; 96]))])), LAYER_DIFFERS);
    }

    #[test]
    fn elements_that_climb_out() {
        let one = |name: &str| file(name, 1, Some(1));
        let inside = |name: &str, inner: Vec<u8>| [string(name.as_bytes()), directory(&[inner])].concat();
        for name in ["", ".", "..", "/", "a/b", "/a", "a/", "\0", "a\0", "\0a", "../x"] {
            let trees = [
                one(name),
                inside(name, inside("b", one("c"))),
                inside("a", inside(name, one("c"))),
                inside("a", one(name)),
            ];
            for tree in trees {
                assert_eq!(number_of_tree(&directory(&[tree])), WRONG_TREE, "{name:?}");
            }
        }
        for name in ["...", ". ", "..a", ".a", "a..", " ", "\\", "\u{ff}"] {
            assert_eq!(number_of_tree(&directory(&[inside(name, one(name))])), 0, "{name:?}");
        }
        let also_one_root = directory(&[one("."), file("b", 2, Some(1))]);
        assert_eq!(number_of_tree(&also_one_root), WRONG_TREE);
    }

    #[test]
    fn files_of_one_root_share_a_layer() {
        let layer = [[5; 32], [6; 32], [7; 32]].concat();
        let root = pair(&pair(&[5; 32], &[6; 32]), &pair(&[7; 32], &[0; 32]));
        let file = |name: &str, length: u64| {
            let length = [b"6:lengthi", length.to_string().as_bytes(), b"e"].concat();
            [&string(name.as_bytes()), &b"d0:d"[..], &length, b"11:pieces root", &string(&root), b"ee"].concat()
        };
        let entry = |key: &[u8], layer: &[u8]| [string(key), string(layer)].concat();
        let with = |files: &[Vec<u8>], entries: &[Vec<u8>]| torrent(&directory(files), &directory(entries));
        let right = entry(&root, &layer);
        let twins = [file("a", 40000), file("b", 40000)];
        let triplets = [&twins[..], &[file("c", 40000)]].concat();
        for files in [&twins[..], &triplets] {
            let good = with(files, std::slice::from_ref(&right));
            let first = torrent_file(&good, 0);
            assert_eq!((first.number, first.layer_size), (0, 96));
            assert!((1..files.len() as u64).all(|other| torrent_file(&good, other) == first));
            assert_eq!(number(&with(files, &[])), LAYERS_AMISS);
            assert_eq!(number(&with(files, &[entry(&root, &layer[..64])])), LAYERS_AMISS);
            assert_eq!(number(&with(files, &[right.clone(), entry(&[255; 32], b"")])), LAYERS_AMISS);
            assert_eq!(number(&with(files, &[entry(&root, &[5; 96])])), LAYER_DIFFERS);
        }
        for length in [1, 16384, 32769, 49152] {
            assert_eq!(
                number(&with(&[file("a", 40000), file("b", length)], std::slice::from_ref(&right))),
                TWO_LENGTHS
            );
        }
    }
}
