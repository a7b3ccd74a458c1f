//! Lists of files that torrents are written of: good ones, ones with something wrong in their content or in their bytes, and
//! hostile ones. Parts are put into the text one behind the other, shared, overlapping, or with bytes of nobody between.

use crate::call::{Call, Entry, Given, Outcome};
use crate::compare::Comparison;
use crate::random::Random;
use reference::limits::{LARGEST_TORRENT, RECORD, WRITE_RECORD};
use reference::number::{DONE, NESTED_TOO_DEEPLY, TORRENT_TOO_LARGE};
use reference::pieces::over_piece_layer;
use reference::sha256::Hash;
use reference::torrent::contents;
use reference::tree::Facts;

/// A file before it is written down.
#[derive(Clone, Debug, PartialEq, Eq)]
pub struct Planned {
    pub path: Vec<Vec<u8>>,
    pub length: u64,
    pub root: Hash,
    pub layer: Vec<u8>,
}

/// The list's bytes and the text they point into.
#[derive(Clone, Debug, PartialEq, Eq)]
pub struct Written {
    pub list: Vec<u8>,
    pub text: Vec<u8>,
}

/// How parts are put into the text.
#[derive(Clone, Copy, PartialEq, Eq)]
pub enum Placing {
    /// One behind the other, with so many bytes that belong to nobody before each.
    Apart(usize),
    /// Bytes that already stand in the text are used again, wherever they are: parts are shared, and overlap.
    Shared,
}

/// A path as the list has it: each element behind its size.
pub fn path_bytes(path: &[Vec<u8>]) -> Vec<u8> {
    path.iter().flat_map(|element| [&(element.len() as u32).to_be_bytes()[..], element].concat()).collect()
}

/// Where a part stands in the text, which is made longer if need be.
fn place(text: &mut Vec<u8>, part: &[u8], placing: Placing) -> u32 {
    if let Placing::Shared = placing {
        let found = text.windows(part.len().max(1)).position(|window| window == part);
        if let Some(at) = found.filter(|_| !part.is_empty()) {
            return at as u32;
        }
    }
    if let Placing::Apart(between) = placing {
        text.resize(text.len() + between, 0x55);
    }
    let start = text.len() as u32;
    text.extend_from_slice(part);
    start
}

/// A file's record, with its parts at these places.
pub fn record(length: u64, root: &Hash, layer: [u32; 2], path: [u32; 2]) -> Vec<u8> {
    let parts = [layer, path].concat().into_iter().flat_map(u32::to_be_bytes);
    length.to_be_bytes().into_iter().chain(*root).chain(parts).collect()
}

pub fn written_down(files: &[Planned], placing: Placing) -> Written {
    let (mut list, mut text) = (Vec::with_capacity(WRITE_RECORD * files.len()), Vec::new());
    for file in files {
        let path = path_bytes(&file.path);
        let layer_at = place(&mut text, &file.layer, placing);
        let path_at = place(&mut text, &path, placing);
        let (layer, path) = ([layer_at, file.layer.len() as u32], [path_at, path.len() as u32]);
        list.extend(record(file.length, &file.root, layer, path));
    }
    Written { list, text }
}

impl Written {
    pub fn call(&self, piece_length: u64, name: &[u8], room: usize) -> Call {
        let call = Call::new(Entry::TorrentWrite).on(&self.list).input(self.text.clone());
        call.numbers(piece_length, 0).named(name).out(vec![0xaa; room])
    }
}

/// The files that a torrent says it has, in tree order.
pub fn read_back(torrent: &[u8]) -> Result<Vec<Planned>, u32> {
    let planned = |file: reference::torrent::Listed| Planned {
        path: file.path.into_iter().map(|part| torrent[part].to_vec()).collect(),
        length: file.length,
        root: file.root,
        layer: torrent[file.layer].to_vec(),
    };
    contents(torrent).map(|all| all.files.into_iter().map(planned).collect())
}

pub fn in_tree_order(files: &[Planned]) -> Vec<Planned> {
    let mut files = files.to_vec();
    files.sort_by(|one, other| one.path.cmp(&other.path));
    files
}

/// A file of this length with a layer, if it has to have one, that gives its root.
pub fn file_of(random: &mut Random, path: Vec<Vec<u8>>, length: u64, piece_length: u64) -> Planned {
    let facts = Facts { length, piece_length, root: [0; 32] };
    if length == 0 || !facts.has_piece_layer() {
        let root = if length == 0 { [0; 32] } else { random.hash() };
        return Planned { path, length, root, layer: Vec::new() };
    }
    let layer = random.bytes(32 * facts.pieces() as usize);
    let root = over_piece_layer(&facts, &layer).last().unwrap().1;
    Planned { path, length, root, layer }
}

struct Maker<'a> {
    random: &'a mut Random,
    piece_length: u64,
}

impl Maker<'_> {
    fn element(&mut self) -> Vec<u8> {
        if self.random.below(400) == 0 {
            return self.random.pick(&[&b""[..], b".", b"..", b"a/b", b"a\0"]).to_vec();
        }
        let size = self.random.between(1, 2) as usize;
        (0..size).map(|_| self.random.pick(b"ab-z\xff")).collect()
    }

    fn path(&mut self) -> Vec<Vec<u8>> {
        let elements = match self.random.below(300) {
            0 => self.random.between(27, 30),
            1 => 0,
            _ => self.random.between(1, 3),
        };
        (0..elements).map(|_| self.element()).collect()
    }

    fn file(&mut self) -> Planned {
        let path = self.path();
        let length = match self.random.below(10) {
            0 => 0,
            1 => self.piece_length,
            2..=6 => self.random.between(1, self.piece_length),
            _ => self.random.between(self.piece_length + 1, 5 * self.piece_length),
        };
        file_of(self.random, path, length, self.piece_length)
    }

    /// The content of an earlier file under another path, sometimes.
    fn next(&mut self, files: &[Planned]) -> Planned {
        let file = self.file();
        if files.is_empty() || !self.random.percent(15) {
            return file;
        }
        Planned { path: file.path, ..self.random.pick(files) }
    }

    /// Something wrong in one file.
    fn damage(&mut self, file: &mut Planned, other: &Planned) {
        match self.random.below(9) {
            0 => file.root = self.random.pick(&[[0; 32], [9; 32], other.root]),
            1 => file.layer = vec![1; self.random.below(200) as usize],
            2 => file.layer = other.layer.clone(),
            3 => file.length = self.random.below(4 * self.piece_length),
            4 => file.length = 1 << self.random.between(20, 63),
            5 => file.path = other.path.clone(),
            6 => file.path = other.path[..other.path.len().saturating_sub(1)].to_vec(),
            7 => file.path = [&other.path[..], &[b"z".to_vec()]].concat(),
            _ => (file.length, file.root) = (other.length, other.root),
        }
    }

    fn files(&mut self) -> Vec<Planned> {
        let many = self.random.below(200) == 0;
        let count = if many { self.random.between(20, 200) } else { self.random.between(0, 6) };
        let mut files: Vec<Planned> = Vec::new();
        for number in 0..count {
            let mut file = self.next(&files);
            if many {
                file.path.insert(0, format!("{number:03}").into_bytes());
            }
            files.push(file);
        }
        if !files.is_empty() && self.random.percent(30) {
            let at = self.random.below(count) as usize;
            let other = self.random.pick(&files);
            self.damage(&mut files[at], &other);
        }
        files
    }
}

/// Some files, mostly such that a torrent can be written of them.
pub fn files(random: &mut Random, piece_length: u64) -> Vec<Planned> {
    Maker { random, piece_length }.files()
}

/// Something wrong in the list's own bytes: its size, a number, a text that is too short.
fn spoil(written: &mut Written, random: &mut Random) {
    match random.below(6) {
        0 => drop(written.list.pop()),
        1 => written.list.push(0),
        2 => written.text.truncate(written.text.len() - (written.text.len() as u64).min(random.between(1, 9)) as usize),
        3 => {
            let at = random.below(written.text.len().max(1) as u64) as usize;
            written.text.iter_mut().skip(at).take(1).for_each(|byte| *byte ^= 1 << random.below(8));
        }
        _ => {
            let at = random.below(written.list.len().max(1) as u64) as usize;
            written.list.iter_mut().skip(at).take(1).for_each(|byte| *byte = random.pick(&[0, 1, 0x7f, 0x80, 0xff]));
        }
    }
}

fn shuffled(files: &[Planned], random: &mut Random) -> Vec<Planned> {
    let mut files = files.to_vec();
    for at in (1..files.len()).rev() {
        files.swap(at, random.below(at as u64 + 1) as usize);
    }
    files
}

fn placing(random: &mut Random) -> Placing {
    if random.percent(40) {
        Placing::Shared
    } else {
        Placing::Apart(random.below(4) as usize)
    }
}

/// What is written is read back as the same files by the reference, and the calls that read it whole are compared as well.
fn ask_back(files: &[Planned], outcome: &Outcome, piece_length: u64, compared: &mut Comparison) {
    let torrent = &outcome.out[..outcome.given.count() as usize];
    assert_eq!(contents(torrent).map(|all| all.piece_length), Ok(piece_length));
    assert_eq!(read_back(torrent), Ok(in_tree_order(files)));
    let read = compared.ask(&Call::new(Entry::TorrentRead).input(torrent.to_vec()));
    assert!(matches!(read.given, Given::Torrent(whole) if whole.number == DONE && whole.files == files.len() as u64));
    compared.ask(&Call::new(Entry::TorrentList).input(torrent.to_vec()).out(vec![0xaa; RECORD * files.len()]));
}

/// A list with room to spare, in just the room, a byte less and none; then in another order with other places: the same answer,
/// and the same bytes.
fn ask_list(files: &[Planned], piece_length: u64, name: &[u8], random: &mut Random, compared: &mut Comparison) {
    let written = written_down(files, placing(random));
    let first = compared.ask(&written.call(piece_length, name, 4096.max(120 * files.len()) + name.len()));
    if first.given.number() != DONE {
        return;
    }
    let size = first.given.count() as usize;
    for room in [size, size - 1, 0] {
        compared.ask(&written.call(piece_length, name, room));
    }
    let other = written_down(&shuffled(files, random), placing(random));
    let second = compared.ask(&other.call(piece_length, name, first.out.len()));
    assert_eq!((second.given, second.out), (first.given, first.out.clone()), "another order");
    ask_back(files, &first, piece_length, compared);
}

fn any_name(random: &mut Random) -> Vec<u8> {
    let size = random.pick(&[0, 1, 4, 9, 10, 100]);
    random.bytes(size)
}

/// Lists, as long as wanted.
pub fn run(random: &mut Random, compared: &mut Comparison, mut go_on: impl FnMut(&Comparison) -> bool) {
    while go_on(compared) {
        let piece_length = random.pick(&[16384, 16384, 32768, 1 << 24]);
        let files = files(random, piece_length);
        let name = any_name(random);
        ask_list(&files, piece_length, &name, random, compared);
        let mut written = written_down(&files, placing(random));
        match random.below(12) {
            0 => drop(compared.ask(&written.call(random.pick(&OTHER_PIECE_LENGTHS), &name, 4096))),
            1 => drop(compared.ask(&written.call(piece_length, &vec![b'n'; LARGEST_TORRENT], 4096))),
            2..=6 => {
                spoil(&mut written, random);
                compared.ask(&written.call(piece_length, &name, 4096));
            }
            _ => (),
        }
    }
}

/// Among them some that are in range if they are cut to 32 bits.
const OTHER_PIECE_LENGTHS: [u64; 9] = [0, 1, 8192, 16383, 16385, 1 << 25, (1 << 32) + 16384, 1 << 63, u64::MAX];

/// Files that make a writer work, and of which a torrent is written.
pub struct Shape {
    pub name: &'static str,
    pub make: fn() -> Vec<Planned>,
}

/// A list that makes a writer work, with the number it is refused with.
pub struct Refused {
    pub name: &'static str,
    pub make: fn() -> Written,
    pub number: u32,
}

/// The piece length of all of them.
pub const PIECE_LENGTH: u64 = 16384;

/// Names of two bytes, as many as there may be, none of them wrong; descending, so that all have to be moved.
fn name(number: usize) -> Vec<u8> {
    let byte = |digit: usize| if digit < 45 { digit + 1 } else { digit + 3 } as u8;
    let number = 253 * 253 - 1 - number;
    vec![byte(number / 253), byte(number % 253)]
}

fn file(path: Vec<Vec<u8>>, length: u64, root: Hash) -> Planned {
    Planned { path, length, root, layer: Vec::new() }
}

fn root(number: usize) -> Hash {
    Random::new(number as u64).hash()
}

/// So many empty files, each in the outermost folder; names repeat behind 64,009.
fn empty_files(count: usize) -> Vec<Planned> {
    (0..count).map(|n| file(vec![name(n % 64_009)], 0, [0; 32])).collect()
}

/// The ordinary list of 10,000 files in 100 folders, in no order.
fn ten_thousand() -> Vec<Planned> {
    let planned = |number: usize| {
        let path = vec![format!("{:02}", number / 100).into_bytes(), format!("{number:05}").into_bytes()];
        file(path, 10000 + (number * 7 % 6384) as u64, root(number))
    };
    let files: Vec<Planned> = (0..10_000).map(planned).collect();
    shuffled(&files, &mut Random::new(4))
}

/// The name of the ordinary one.
pub const ORDINARY: &str = "10000-files";

pub const GOOD: [Shape; 9] = [
    shape(ORDINARY, ten_thousand),
    shape("many-files", || (0..14_900).map(|n| file(vec![name(n)], 1, root(n))).collect()),
    shape("49000-empty", || empty_files(49_000)),
    shape("equal-roots", || (0..14_900).map(|n| file(vec![name(n)], 1, [7; 32])).collect()),
    shape("28-elements", || {
        (0..14_800).map(|n| file([vec![b"a".to_vec(); 27], vec![name(n)]].concat(), 1, root(n))).collect()
    }),
    shape("own-folders", || {
        (0..5_000).map(|n| file([vec![name(n)], vec![b"a".to_vec(); 27]].concat(), 1, root(n))).collect()
    }),
    shape("long-element", long_element),
    shape("equal-layers", equal_layers),
    shape("many-layers", many_layers),
];

const fn shape(name: &'static str, make: fn() -> Vec<Planned>) -> Shape {
    Shape { name, make }
}

/// Files in one folder with a name as long as it may be: each path has to be compared through all of it.
fn long_element() -> Vec<Planned> {
    (0..20).map(|n| file(vec![vec![b'x'; 900_000], name(n)], 1, root(n))).collect()
}

/// Twins with one large layer, each with its own copy of it.
fn equal_layers() -> Vec<Planned> {
    let twin = file_of(&mut Random::new(1), Vec::new(), PIECE_LENGTH * 2_000, PIECE_LENGTH);
    (0..100).map(|n| Planned { path: vec![name(n)], ..twin.clone() }).collect()
}

/// Files of three pieces, each with a layer of its own.
fn many_layers() -> Vec<Planned> {
    let mut random = Random::new(1);
    (0..4_500).map(|n| file_of(&mut random, vec![name(n)], 3 * PIECE_LENGTH, PIECE_LENGTH)).collect()
}

pub const REFUSED: [Refused; 5] = [
    refused("one-path", one_path, TORRENT_TOO_LARGE),
    refused("69905-empty", || written_down(&empty_files(69_905), Placing::Apart(0)), TORRENT_TOO_LARGE),
    refused("too-many", || written_down(&empty_files(200_000), Placing::Apart(0)), TORRENT_TOO_LARGE),
    refused("shared-deep-path", || deep_paths(|_| 0), NESTED_TOO_DEEPLY),
    refused("overlapping-paths", || deep_paths(|n| 4 * n), NESTED_TOO_DEEPLY),
];

const fn refused(name: &'static str, make: fn() -> Written, number: u32) -> Refused {
    Refused { name, make, number }
}

/// As many files as a list is sorted with, all of them with the same path.
fn one_path() -> Written {
    let text = path_bytes(&[b"a".to_vec()]);
    Written { list: record(0, &[0; 32], [0, 0], [0, text.len() as u32]).repeat(69_905), text }
}

/// Paths of very many empty elements that begin somewhere in one text and end with it.
fn deep_paths(start: fn(u32) -> u32) -> Written {
    let text = vec![0; 400_000];
    let part = |n: u32| [start(n), text.len() as u32 - start(n)];
    Written { list: (0..50).flat_map(|n| record(1, &[7; 32], [0, 0], part(n))).collect(), text }
}

/// Calls with all the room that may be needed and with a byte too little; what is written is read back.
pub fn ask_hostile(compared: &mut Comparison) {
    for shape in &GOOD {
        let files = (shape.make)();
        let written = written_down(&files, Placing::Apart(0));
        let outcome = compared.ask(&written.call(PIECE_LENGTH, b"x", LARGEST_TORRENT));
        assert_eq!(outcome.given.number(), DONE, "{}", shape.name);
        compared.ask(&written.call(PIECE_LENGTH, b"x", outcome.given.count() as usize - 1));
        ask_back(&files, &outcome, PIECE_LENGTH, compared);
    }
    for list in &REFUSED {
        let outcome = compared.ask(&(list.make)().call(PIECE_LENGTH, b"x", LARGEST_TORRENT));
        assert_eq!(outcome.given.number(), list.number, "{}", list.name);
    }
}
