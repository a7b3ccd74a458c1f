//! The v1 half of hybrids: in every manner that a maker may choose, and with one clause of what fits broken.

use crate::random::Random;
use crate::torrents::{dictionary, integer, Value};
use reference::sha1::sha1;
use std::collections::BTreeMap;
use Value::{Dictionary, Integer, List, String as Text};

type Properties = BTreeMap<Vec<u8>, Value>;

/// An entry of `files`.
#[derive(Clone)]
struct Line {
    is_file: bool,
    properties: Properties,
}

/// A v1 half, before it is put into `info`.
#[derive(Clone)]
pub struct Half {
    piece_length: u64,
    lines: Vec<Line>,
    /// Written as `length`: one file of one path element.
    is_single: bool,
    /// The keys of `info` that aren't `files`: `length`, `name`, `pieces` and unknown ones; and what stands there in place of them.
    keys: BTreeMap<Vec<u8>, Option<Value>>,
}

/// The piece length and the files of a torrent with nothing wrong: path and length, as its tree has them.
fn described(torrent: &mut Value) -> (u64, Vec<(Vec<Value>, u64)>) {
    let info = value_of(torrent, b"info").expect("info");
    let piece_length = natural(value_of(info, b"piece length").expect("a piece length"));
    let mut files = Vec::new();
    add_files(value_of(info, b"file tree").expect("a tree"), &mut Vec::new(), &mut files);
    (piece_length, files)
}

fn value_of<'a>(value: &'a mut Value, key: &[u8]) -> Option<&'a mut Value> {
    let Dictionary(entries) = value else { return None };
    entries.iter_mut().find(|(name, _)| name == key).map(|(_, value)| value)
}

fn natural(value: &Value) -> u64 {
    let Integer(digits) = value else { panic!("an integer") };
    digits.parse().expect("a number")
}

fn add_files(tree: &mut Value, path: &mut Vec<Value>, files: &mut Vec<(Vec<Value>, u64)>) {
    let Dictionary(entries) = tree else { panic!("a directory") };
    for (name, node) in entries {
        path.push(Text(name.clone()));
        match value_of(node, b"") {
            Some(properties) => files.push((path.clone(), natural(value_of(properties, b"length").expect("a length")))),
            None => add_files(node, path, files),
        }
        path.pop();
    }
}

fn file(path: &[Value], length: u64) -> Line {
    let properties = [(b"length".to_vec(), integer(length)), (b"path".to_vec(), List(path.to_vec()))];
    Line { is_file: true, properties: properties.into() }
}

/// As libtorrent writes padding; or without a path, or with more attributes.
fn padding(size: u64, random: &mut Random) -> Line {
    let attr = random.pick(&[&b"p"[..], b"p", b"p", b"xp", b"ph"]);
    let mut properties = Properties::from([(b"attr".to_vec(), text(attr)), (b"length".to_vec(), integer(size))]);
    if random.percent(80) {
        let path = List(vec![text(b".pad"), text(size.to_string().as_bytes())]);
        properties.insert(b"path".to_vec(), path);
    }
    Line { is_file: false, properties }
}

fn text(content: &[u8]) -> Value {
    Text(content.to_vec())
}

impl Half {
    /// A half that fits a torrent with nothing wrong: padding behind every file, behind the last too or not; in one entry, in two, of no bytes, of a
    /// piece more; unknown keys.
    pub fn fitting(torrent: &mut Value, random: &mut Random) -> Half {
        let (piece_length, files) = described(torrent);
        let is_single = files.len() == 1 && files[0].0.len() == 1 && random.percent(60);
        let has_tail = random.percent(50);
        let mut lines = Vec::new();
        for (number, (path, length)) in files.iter().enumerate() {
            lines.push(file(path, *length));
            let gap = length.next_multiple_of(piece_length) - length;
            if !is_single && (has_tail || number + 1 < files.len()) {
                add_padding(gap, piece_length, &mut lines, random);
            }
        }
        for line in &mut lines {
            if random.percent(90) {
                continue;
            }
            line.properties.insert(b"mtime".to_vec(), integer(7));
            line.properties.insert(b"sha1".to_vec(), Text(random.bytes(20)));
        }
        let mut half = Half { piece_length, lines, is_single, keys: BTreeMap::new() };
        let size = 20 * half.pieces() as usize;
        half.put(b"pieces", Text(random.bytes(size)));
        if is_single {
            half.put(b"length", integer(files[0].1));
            half.put(b"name", files[0].0[0].clone());
        } else if random.percent(10) {
            half.keys.insert(b"name".to_vec(), None);
        }
        if random.percent(10) {
            half.put(b"attr", text(b"p"));
        }
        half
    }

    /// Gives `pieces` the hashes that are true for files of these contents.
    pub fn hash(&mut self, contents: &[&[u8]]) {
        let mut contents = contents.iter();
        let mut bytes = Vec::new();
        for line in 0..self.lines.len() {
            match self.lines[line].is_file {
                true => bytes.extend_from_slice(contents.next().expect("a content for each file")),
                false => bytes.resize(bytes.len() + self.size(line) as usize, 0),
            }
        }
        let pieces = bytes.chunks(self.piece_length as usize).flat_map(sha1).collect();
        self.put(b"pieces", Text(pieces));
    }

    pub fn leave_out_pieces(&mut self) {
        self.keys.insert(b"pieces".to_vec(), None);
    }

    /// So that padding stands in front of the next file that isn't empty, and an empty file inside a piece: libtorrent's
    /// `canonical_files_no_tail_padding`. Whether an empty file came to stand there.
    fn lazily_padded(&mut self) -> bool {
        let is_empty = |line: &Line| line.is_file && natural(&line.properties[&b"length"[..]]) == 0;
        let mut moved = false;
        for at in 1..self.lines.len() {
            if !self.lines[at - 1].is_file && is_empty(&self.lines[at]) {
                self.lines.swap(at - 1, at);
                moved |= !self.before(at - 1).is_multiple_of(self.piece_length);
            }
        }
        moved
    }

    fn size(&self, line: usize) -> u64 {
        natural(&self.lines[line].properties[&b"length"[..]])
    }

    /// The bytes of the entries before this one.
    fn before(&self, line: usize) -> u64 {
        (0..line).map(|line| self.size(line)).sum()
    }

    fn pieces(&self) -> u64 {
        self.before(self.lines.len()).div_ceil(self.piece_length)
    }

    fn put(&mut self, key: &[u8], value: Value) {
        self.keys.insert(key.to_vec(), Some(value));
    }

    /// The number of a line of this kind, if there is one.
    fn any(&self, is_file: bool, random: &mut Random) -> Option<usize> {
        let lines: Vec<usize> = (0..self.lines.len()).filter(|line| self.lines[*line].is_file == is_file).collect();
        (!lines.is_empty() && !self.is_single).then(|| random.pick(&lines))
    }

    fn property(&mut self, line: usize, key: &[u8]) -> &mut Value {
        self.lines[line].properties.get_mut(key).expect("a property")
    }

    fn set(&mut self, line: usize, key: &[u8], value: Value) {
        self.lines[line].properties.insert(key.to_vec(), value);
    }

    /// The torrent with this half in its `info`.
    pub fn put_into(&self, torrent: &mut Value) {
        let Some(Dictionary(entries)) = value_of(torrent, b"info") else { panic!("info") };
        let mut keys: BTreeMap<Vec<u8>, Option<Value>> =
            std::mem::take(entries).into_iter().map(|(key, value)| (key, Some(value))).collect();
        if !self.is_single {
            let lines = self.lines.iter().map(|line| dictionary(line.properties.clone()));
            keys.insert(b"files".to_vec(), Some(List(lines.collect())));
        }
        keys.extend(self.keys.clone());
        *entries = keys.into_iter().filter_map(|(key, value)| Some((key, value?))).collect();
    }
}

/// Padding up to the boundary; sometimes more of it, which fits as well.
fn add_padding(gap: u64, piece_length: u64, lines: &mut Vec<Line>, random: &mut Random) {
    if random.percent(5) {
        lines.push(padding(0, random));
    }
    let first = if gap > 1 && random.percent(10) { random.between(1, gap - 1) } else { gap };
    for size in [first, gap - first] {
        if size > 0 {
            lines.push(padding(size, random));
        }
    }
    if random.percent(4) {
        lines.push(padding(piece_length, random));
    }
}

/// A clause of what fits, and how it is broken: false where this half has nothing to break.
pub type Clause = (&'static str, fn(&mut Half, &mut Random) -> bool);

/// Every clause in turn; a half that fits doesn't any more.
pub const CLAUSES: [Clause; 33] = [
    ("both `files` and `length`", |half, random| {
        let key = if half.is_single { &b"files"[..] } else { b"length" };
        half.put(key, random.pick(&[integer(1), List(Vec::new())]));
        true
    }),
    ("neither", |half, _| {
        let key = if half.is_single { &b"length"[..] } else { b"files" };
        half.keys.insert(key.to_vec(), None);
        true
    }),
    ("`pieces` of another type", |half, random| {
        half.put(b"pieces", random.pick(&[integer(0), List(Vec::new()), Dictionary(Vec::new())]));
        true
    }),
    ("a hash too many", |half, random| change_pieces(half, |pieces| pieces.extend(random.bytes(20)))),
    ("a hash too few", |half, _| change_pieces(half, |pieces| pieces.truncate(pieces.len().max(20) - 20))),
    ("a byte too many", |half, _| change_pieces(half, |pieces| pieces.push(0))),
    ("a byte too few", |half, _| change_pieces(half, |pieces| pieces.truncate(pieces.len().max(1) - 1))),
    ("`files` of another type", |half, random| {
        let others = [integer(0), text(b"le"), Dictionary(Vec::new())];
        !half.is_single && {
            half.put(b"files", random.pick(&others));
            true
        }
    }),
    ("an entry of another type", |half, random| {
        let mut entries: Vec<Value> = half.lines.iter().map(|line| dictionary(line.properties.clone())).collect();
        let at = random.below(entries.len() as u64 + 1) as usize;
        entries.insert(at, random.pick(&[integer(0), text(b"p"), List(Vec::new())]));
        !half.is_single && {
            half.put(b"files", List(entries));
            true
        }
    }),
    ("an entry without a length", |half, random| {
        on_any(half, random, |half, line, _| half.lines[line].properties.remove(&b"length"[..]).is_some())
    }),
    ("a length of another type", |half, random| {
        on_any(half, random, |half, line, random| {
            half.set(line, b"length", random.pick(&[text(b"1"), List(vec![integer(1)])]));
            true
        })
    }),
    ("a negative length", |half, random| {
        on_any(half, random, |half, line, random| {
            half.set(line, b"length", Integer(random.pick(&["-1", "-16384", "-9223372036854775808"]).to_string()));
            true
        })
    }),
    ("`attr` of another type", |half, random| {
        on_any(half, random, |half, line, random| {
            half.set(line, b"attr", random.pick(&[integer(1), List(vec![text(b"p")]), Dictionary(Vec::new())]));
            true
        })
    }),
    ("padding with an empty path", |half, random| {
        on_padding(half, random, |half, line, _| {
            half.set(line, b"path", List(Vec::new()));
            true
        })
    }),
    ("padding with a path of another type", |half, random| {
        on_padding(half, random, |half, line, random| {
            half.set(line, b"path", random.pick(&[text(b".pad"), List(vec![integer(1)]), List(vec![text(b"")])]));
            true
        })
    }),
    ("padding that is none", |half, random| {
        on_padding(half, random, |half, line, random| {
            half.set(line, b"attr", text(random.pick(&[&b""[..], b"x", b"P"])));
            true
        })
    }),
    ("a file that is padding", |half, random| {
        on_file(half, random, |half, line, random| {
            half.set(line, b"attr", text(random.pick(&[&b"p"[..], b"hp"])));
            true
        })
    }),
    ("a file without a path", |half, random| {
        on_file(half, random, |half, line, _| half.lines[line].properties.remove(&b"path"[..]).is_some())
    }),
    ("a file with a path of another type", |half, random| {
        on_file(half, random, |half, line, random| {
            half.set(line, b"path", random.pick(&[text(b"a"), integer(1), Dictionary(Vec::new())]));
            true
        })
    }),
    ("an empty path", |half, random| {
        on_file(half, random, |half, line, _| {
            half.set(line, b"path", List(Vec::new()));
            true
        })
    }),
    ("an element too many", |half, random| {
        on_path(half, random, |path, random| {
            let at = random.below(path.len() as u64 + 1) as usize;
            path.insert(at, random.pick(&[text(b""), text(b"a"), text(b"x")]));
        })
    }),
    ("an element too few", |half, random| on_path(half, random, |path, _| drop(path.pop()))),
    ("another element", |half, random| {
        on_path(half, random, |path, random| {
            let at = random.below(path.len() as u64) as usize;
            if let Text(element) = &mut path[at] {
                match random.below(3) {
                    0 => element.push(b'a'),
                    1 => element[0] ^= 1,
                    _ => element.clear(),
                }
            }
        })
    }),
    ("an element of another type", |half, random| {
        on_path(half, random, |path, random| {
            let at = random.below(path.len() as u64) as usize;
            path[at] = random.pick(&[integer(7), List(Vec::new())]);
        })
    }),
    ("a byte of padding taken for the file's", |half, random| {
        let pairs = (1..half.lines.len()).filter(|at| half.lines[at - 1].is_file && !half.lines[*at].is_file);
        let pairs: Vec<usize> = pairs.filter(|at| half.size(*at) > 0).collect();
        !pairs.is_empty() && {
            let at = random.pick(&pairs);
            let (file, gap) = (half.size(at - 1), half.size(at));
            half.set(at - 1, b"length", integer(file + 1));
            half.set(at, b"length", integer(gap - 1));
            true
        }
    }),
    ("padding of another size, a file behind it", |half, random| {
        let before = |at: &usize| !half.lines[*at].is_file && half.lines[*at..].iter().any(|line| line.is_file);
        let lines: Vec<usize> = (0..half.lines.len()).filter(before).collect();
        !lines.is_empty() && {
            let at = random.pick(&lines);
            *half.property(at, b"length") = integer(half.size(at) + random.pick(&[1, 2, 8192]));
            true
        }
    }),
    ("an empty file inside a piece", |half, _| half.lazily_padded()),
    ("two files in another order", |half, random| {
        let (Some(one), Some(other)) = (half.any(true, random), half.any(true, random)) else { return false };
        let path = half.lines[one].properties[&b"path"[..]].clone();
        let path = std::mem::replace(half.property(other, b"path"), path);
        half.set(one, b"path", path);
        one != other
    }),
    ("a file too many", |half, random| {
        let line = file(&[text(b"zz")], 0);
        half.lines.insert(random.pick(&[0, half.lines.len()]), line);
        !half.is_single
    }),
    ("a file too few", |half, random| {
        on_file(half, random, |half, line, _| {
            half.lines.remove(line);
            true
        })
    }),
    ("`name` of another type", |half, random| {
        half.put(b"name", random.pick(&[integer(1), List(vec![text(b"x")])]));
        true
    }),
    ("one file of another name", |half, random| {
        let others = [Some(text(b"another")), Some(text(b"")), None];
        half.is_single && {
            half.keys.insert(b"name".to_vec(), random.pick(&others));
            true
        }
    }),
    ("one file of another length", |half, random| {
        let length = half.size(0);
        half.is_single && {
            half.put(b"length", random.pick(&[integer(length + 1), Integer("-1".to_string()), text(b"1")]));
            true
        }
    }),
];

fn change_pieces(half: &mut Half, change: impl FnOnce(&mut Vec<u8>)) -> bool {
    let Some(Some(Text(pieces))) = half.keys.get_mut(&b"pieces"[..]) else { return false };
    let before = pieces.len();
    change(pieces);
    pieces.len() != before
}

type Change = fn(&mut Half, usize, &mut Random) -> bool;

fn on_file(half: &mut Half, random: &mut Random, change: Change) -> bool {
    half.any(true, random).is_some_and(|line| change(half, line, random))
}

fn on_padding(half: &mut Half, random: &mut Random, change: Change) -> bool {
    half.any(false, random).is_some_and(|line| change(half, line, random))
}

fn on_any(half: &mut Half, random: &mut Random, change: Change) -> bool {
    let is_file = random.percent(50);
    half.any(is_file, random).is_some_and(|line| change(half, line, random))
}

fn on_path(half: &mut Half, random: &mut Random, change: fn(&mut Vec<Value>, &mut Random)) -> bool {
    let Some(line) = half.any(true, random) else { return false };
    let List(path) = half.property(line, b"path") else { return false };
    change(path, random);
    true
}

/// Breaks one clause, whichever this half has.
pub fn break_one(half: &mut Half, random: &mut Random) {
    for _ in 0..20 {
        if random.pick(&CLAUSES).1(half, random) {
            return;
        }
    }
}
