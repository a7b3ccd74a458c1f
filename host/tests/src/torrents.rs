//! Torrents, good ones and ones with something wrong: in their values, or in their bytes.

use crate::call::{Call, Entry, Given};
use crate::compare::Comparison;
use crate::hybrids::{break_one, Half};
use crate::random::Random;
use reference::limits::RECORD;
use reference::number::{DONE, HALVES_DIFFER, TORRENT_TOO_LARGE};
use reference::pieces::over_piece_layer;
use reference::torrent::{element_right, Torrent};
use reference::tree::Facts;
use std::collections::BTreeMap;

/// A value to be encoded. Integers are text, so that forms that aren't strict can be written too.
#[derive(Clone)]
pub enum Value {
    Integer(String),
    String(Vec<u8>),
    List(Vec<Value>),
    Dictionary(Vec<(Vec<u8>, Value)>),
}

use Value::{Dictionary, Integer, List, String as Text};

impl Value {
    pub fn encoded(&self) -> Vec<u8> {
        let mut bytes = Vec::new();
        self.encode(&mut bytes);
        bytes
    }

    fn encode(&self, bytes: &mut Vec<u8>) {
        match self {
            Integer(digits) => bytes.extend_from_slice(format!("i{digits}e").as_bytes()),
            Text(content) => encode_string(content, bytes),
            List(values) => {
                bytes.push(b'l');
                values.iter().for_each(|value| value.encode(bytes));
                bytes.push(b'e');
            }
            Dictionary(entries) => {
                bytes.push(b'd');
                for (key, value) in entries {
                    encode_string(key, bytes);
                    value.encode(bytes);
                }
                bytes.push(b'e');
            }
        }
    }

    /// This value and all below it, counted.
    fn nodes(&self) -> u64 {
        1 + match self {
            List(values) => values.iter().map(Value::nodes).sum(),
            Dictionary(entries) => entries.iter().map(|(_, value)| value.nodes()).sum(),
            _ => 0,
        }
    }

    /// Value number `number` of those, this one being 0.
    fn node(&mut self, mut number: u64) -> &mut Value {
        if number == 0 {
            return self;
        }
        number -= 1;
        let below: Vec<&mut Value> = match self {
            List(values) => values.iter_mut().collect(),
            Dictionary(entries) => entries.iter_mut().map(|(_, value)| value).collect(),
            _ => Vec::new(),
        };
        for value in below {
            let nodes = value.nodes();
            if number < nodes {
                return value.node(number);
            }
            number -= nodes;
        }
        unreachable!("the number is below the count of nodes")
    }
}

fn encode_string(content: &[u8], bytes: &mut Vec<u8>) {
    bytes.extend_from_slice(format!("{}:", content.len()).as_bytes());
    bytes.extend_from_slice(content);
}

pub fn integer(amount: u64) -> Value {
    Integer(amount.to_string())
}

/// A dictionary with its keys in order.
pub fn dictionary(entries: BTreeMap<Vec<u8>, Value>) -> Value {
    Dictionary(entries.into_iter().collect())
}

/// What is put together while a file tree is made: the layers of its files, and their lengths and roots.
struct Maker<'a> {
    random: &'a mut Random,
    piece_length: u64,
    layers: BTreeMap<Vec<u8>, Value>,
    made: Vec<(u64, Vec<u8>)>,
}

impl Maker<'_> {
    fn directory(&mut self, levels: u64) -> Value {
        let mut entries = BTreeMap::new();
        for _ in 0..self.random.between(1, 3) {
            let name = self.name();
            let node = if levels == 0 || self.random.percent(70) { self.file() } else { self.directory(levels - 1) };
            entries.insert(name, node);
        }
        dictionary(entries)
    }

    /// A path element at the edge of the rule, but within it.
    fn name(&mut self) -> Vec<u8> {
        loop {
            let size = self.random.between(1, 3) as usize;
            let name: Vec<u8> = (0..size).map(|_| self.random.pick(b"ab.\\\xff")).collect();
            if element_right(&name) {
                return name;
            }
        }
    }

    /// A folder of many files, at some level.
    fn folder_of_many(&mut self, levels: u64) -> Value {
        let name = |number: u64| format!("{number:03}").into_bytes();
        let files = (0..self.random.between(10, 300)).map(|number| (name(number), self.file())).collect();
        (0..levels).fold(dictionary(files), |below, _| Dictionary(vec![(b"a".to_vec(), below)]))
    }

    fn file(&mut self) -> Value {
        let mut properties = BTreeMap::new();
        let length = match self.random.below(10) {
            0 => 0,
            1 => self.piece_length,
            2..=5 => self.random.between(1, self.piece_length),
            _ => self.random.between(self.piece_length + 1, 6 * self.piece_length),
        };
        let (length, root) = self.twin().unwrap_or_else(|| (length, self.root(length)));
        properties.insert(b"length".to_vec(), integer(length));
        if length > 0 {
            self.made.push((length, root.clone()));
            properties.insert(b"pieces root".to_vec(), Text(root));
        }
        if self.random.percent(10) {
            properties.insert(self.random.pick(&[b"attr".to_vec(), b"".to_vec()]), Text(b"x".to_vec()));
        }
        Dictionary(vec![(Vec::new(), dictionary(properties))])
    }

    /// The length and the root of an earlier file, sometimes; the length is seldom another one.
    fn twin(&mut self) -> Option<(u64, Vec<u8>)> {
        if self.made.is_empty() || !self.random.percent(15) {
            return None;
        }
        let (length, root) = self.random.pick(&self.made);
        Some((if self.random.percent(2) { length + 1 } else { length }, root))
    }

    /// A root for a file of this length. A file longer than the piece length gets a layer that gives it.
    fn root(&mut self, length: u64) -> Vec<u8> {
        let facts = Facts { length, piece_length: self.piece_length, root: [0; 32] };
        if !facts.has_piece_layer() {
            return match self.random.below(20) {
                0 => vec![0; 32],
                // Some that differ in their last bytes only.
                1..=5 => [vec![0xee; 29], self.random.bytes(3)].concat(),
                _ => self.random.bytes(32),
            };
        }
        let layer = self.random.bytes(32 * facts.pieces() as usize);
        let root = over_piece_layer(&facts, &layer).last().unwrap().1.to_vec();
        self.layers.insert(root.clone(), Text(layer));
        root
    }
}

/// A torrent with nothing wrong, but for a rare pair of files with one root and two lengths.
pub fn good(random: &mut Random) -> Value {
    let piece_length = random.pick(&[16384, 32768, 65536, 1 << 24]);
    let mut maker = Maker { random, piece_length, layers: BTreeMap::new(), made: Vec::new() };
    let levels = maker.random.below(4);
    let has_many = maker.random.below(200) == 0;
    let tree = if has_many { maker.folder_of_many(levels) } else { maker.directory(levels) };
    let layers = dictionary(maker.layers);
    let info = BTreeMap::from([
        (b"file tree".to_vec(), tree),
        (b"meta version".to_vec(), integer(2)),
        (b"name".to_vec(), Text(b"x".to_vec())),
        (b"piece length".to_vec(), integer(piece_length)),
    ]);
    let mut outer = BTreeMap::from([(b"info".to_vec(), dictionary(info)), (b"piece layers".to_vec(), layers)]);
    if random.percent(30) {
        let unknown = random.pick(&[integer(7), List(vec![Dictionary(Vec::new())]), Text(random.clone().bytes(9))]);
        outer.insert(random.pick(&[b"announce".to_vec(), b"".to_vec(), b"zz".to_vec()]), unknown);
    }
    dictionary(outer)
}

/// The same, as a hybrid whose halves fit.
pub fn hybrid(random: &mut Random) -> Value {
    let mut torrent = good(random);
    Half::fitting(&mut torrent, random).put_into(&mut torrent);
    torrent
}

/// A torrent with nothing wrong that these make, of so few bytes, with a layer, an empty file and a folder.
fn shorter(most: usize, random: &mut Random, make: fn(&mut Random) -> Value) -> Vec<u8> {
    loop {
        let torrent = make(random).encoded();
        let files = reference::torrent::contents(&torrent).map_or(Vec::new(), |all| all.files);
        let has_layer = files.iter().any(|file| !file.layer.is_empty());
        let has_empty = files.iter().any(|file| file.length == 0);
        if torrent.len() < most && has_layer && has_empty && files.iter().any(|file| file.path.len() > 1) {
            return torrent;
        }
    }
}

/// A good torrent of a few hundred bytes that has a layer, an empty file and a folder.
pub fn small(random: &mut Random) -> Vec<u8> {
    shorter(500, random, good)
}

/// The same, a hybrid.
pub fn small_hybrid(random: &mut Random) -> Vec<u8> {
    shorter(900, random, hybrid)
}

/// Among them some that are in range if they are cut to 32 or 64 bits.
const INTEGERS: [&str; 24] = [
    "0", "1", "2", "3", "-1", "-0", "", "-", "00", "02", "16383", "16384", "33554432", "17179869184", "17179869185",
    "9223372036854775807", "9223372036854775808", "-9223372036854775808", "-9223372036854775809",
    "99999999999999999999999999", "4294967298", "18446744073709551618", "4294983680", "18446744073709568000",
];

/// Changes one value somewhere.
fn change_value(torrent: &mut Value, random: &mut Random) {
    let number = random.below(torrent.nodes());
    let value = torrent.node(number);
    if random.percent(15) {
        *value = random.pick(&[integer(5), Text(b"abc".to_vec()), List(Vec::new()), Dictionary(Vec::new())]);
        return;
    }
    if random.percent(8) {
        nest(value, random);
        return;
    }
    match value {
        Integer(digits) => *digits = random.pick(&INTEGERS).to_string(),
        Text(content) => change_string(content, random),
        List(values) => values.push(integer(1)),
        Dictionary(entries) => change_entries(entries, random),
    }
}

/// Puts a value inside lists and dictionaries, to about the deepest level.
fn nest(value: &mut Value, random: &mut Random) {
    for _ in 0..random.between(20, 34) {
        let inner = value.clone();
        *value = if random.percent(50) { List(vec![inner]) } else { Dictionary(vec![(b"a".to_vec(), inner)]) };
    }
}

fn change_string(content: &mut Vec<u8>, random: &mut Random) {
    match random.below(5) {
        0 => content.clear(),
        1 => content.push(0),
        2 => content.truncate(content.len().saturating_sub(32)),
        3 => content.fill(0),
        _ => {
            if let Some(byte) = content.last_mut() {
                *byte ^= 1;
            }
        }
    }
}

/// Path elements that are wrong, and some that are next to them.
const NAMES: [&[u8]; 12] = [b".", b"..", b"/", b"\0", b"a/b", b"../a", b"a\0", b"..\0", b"...", b". ", b"..a", b"\\"];

fn change_entries(entries: &mut Vec<(Vec<u8>, Value)>, random: &mut Random) {
    if entries.is_empty() {
        entries.push((random.bytes(32), Text(random.bytes(64))));
        return;
    }
    let which = random.below(entries.len() as u64) as usize;
    let other = random.below(entries.len() as u64) as usize;
    match random.below(9) {
        0 => drop(entries.remove(which)),
        1 => entries.insert(which, entries[which].clone()),
        2 => entries.swap(which, other),
        3 => entries.insert(0, (Vec::new(), Dictionary(vec![(b"length".to_vec(), integer(0))]))),
        4 => entries[which].1 = entries[other].1.clone(),
        5 => change_string(&mut entries[which].0, random),
        6 => entries.push((vec![0xff; 33], integer(0))),
        7 => {
            entries[which].0 = random.pick(&NAMES).to_vec();
            entries.sort_by(|one, other| one.0.cmp(&other.0));
        }
        _ => entries.clear(),
    }
}

/// Gives a file the root of another: at a random place, so that it often hits nothing.
fn share_a_string(torrent: &mut Value, random: &mut Random) {
    let nodes = torrent.nodes();
    let strings: Vec<u64> =
        (0..nodes).filter(|number| matches!(torrent.node(*number), Text(content) if content.len() == 32)).collect();
    if strings.len() > 1 {
        let from = torrent.node(random.pick(&strings)).clone();
        *torrent.node(random.pick(&strings)) = from;
    }
}

/// Changes the bytes themselves.
fn change_bytes(bytes: &mut Vec<u8>, random: &mut Random) {
    let at = random.below(bytes.len() as u64) as usize;
    match random.below(8) {
        0 => bytes[at] ^= 1 << random.below(8),
        1 => bytes[at] = random.pick(b"dlie0123456789:-"),
        2 => drop(bytes.remove(at)),
        3 => bytes.insert(at, random.pick(b"dlie0123456789:-")),
        4 => bytes.truncate(at),
        5..=6 => change_prefix(bytes, random),
        _ => bytes.extend_from_slice(random.pick(&[&b"e"[..], b"de", b"\0", b"99999999999999999999:"])),
    }
}

/// Changes a string's length prefix: by one, with a zero before it, or to one that is the same if it is cut to 32 or 64 bits.
fn change_prefix(bytes: &mut Vec<u8>, random: &mut Random) {
    let ends = |at: &usize| bytes[*at] == b':' && bytes[at - 1].is_ascii_digit();
    let ends: Vec<usize> = (1..bytes.len()).filter(ends).collect();
    if ends.is_empty() {
        return;
    }
    let end = random.pick(&ends);
    let start = bytes[..end].iter().rposition(|byte| !byte.is_ascii_digit()).map_or(0, |before| before + 1);
    let Ok(size) = String::from_utf8_lossy(&bytes[start..end]).parse::<u64>() else { return };
    let size = u128::from(size);
    let others = [size + 1, size.saturating_sub(1), size + (1 << 32), size + (1 << 64)].map(|other| other.to_string());
    let changed = if random.percent(20) { format!("0{size}") } else { random.pick(&others) };
    bytes.splice(start..end, changed.into_bytes());
}

/// The bytes of a good torrent with something wrong in its values, its bytes or both.
fn damaged(good: &Value, random: &mut Random) -> Vec<u8> {
    let mut torrent = good.clone();
    match random.below(20) {
        0..=10 => (),
        11..=12 => share_a_string(&mut torrent, random),
        _ => (0..random.between(1, 2)).for_each(|_| change_value(&mut torrent, random)),
    }
    let mut bytes = torrent.encoded();
    if bytes == good.encoded() || random.percent(15) {
        change_bytes(&mut bytes, random);
    }
    if random.below(500) == 0 {
        bytes.resize((1 << 20) + random.below(2) as usize, b'e');
    }
    bytes
}

/// A hybrid with a clause broken; now and then with something else wrong too.
fn with_a_broken_half(torrent: &Value, half: &Half, random: &mut Random) -> Vec<u8> {
    let (mut torrent, mut half) = (torrent.clone(), half.clone());
    break_one(&mut half, random);
    half.put_into(&mut torrent);
    if random.percent(10) {
        change_value(&mut torrent, random);
    }
    torrent.encoded()
}

/// Numbers to ask for: all below `count` or, of many, some; then two that are past them.
fn some(count: u64) -> impl Iterator<Item = u64> {
    let below = if count <= 12 { (0..count).collect() } else { vec![0, 1, count / 2, count - 1] };
    below.into_iter().chain([count, u64::MAX])
}

fn ask_whole(torrent: &[u8], compared: &mut Comparison) -> Torrent {
    match compared.ask(&Call::new(Entry::TorrentRead).input(torrent.to_vec())).given {
        Given::Torrent(whole) => whole,
        _ => unreachable!(),
    }
}

/// Everything that can be asked about a torrent: as a whole, its files, their path elements, and the list in just the room, in
/// more, in a byte less and in none.
pub fn ask_all(torrent: &[u8], compared: &mut Comparison) {
    let whole = ask_whole(torrent, compared);
    ask_about_files(torrent, whole.files, compared);
}

fn ask_about_files(torrent: &[u8], files: u64, compared: &mut Comparison) {
    let about = |entry| Call::new(entry).input(torrent.to_vec());
    for file in some(files) {
        let Given::File(found) = compared.ask(&about(Entry::TorrentFile).numbers(file, 0)).given else {
            unreachable!()
        };
        for element in some(found.elements) {
            compared.ask(&about(Entry::TorrentPath).numbers(file, element));
        }
    }
    let size = files as usize * RECORD;
    for room in [size, size + 9, size.saturating_sub(1), 0] {
        compared.ask(&about(Entry::TorrentList).out(vec![0xaa; room]));
    }
    compared.ask(&about(Entry::TorrentInfo));
    compared.ask(&about(Entry::TorrentName));
    ask_about_halves(torrent, files, compared);
}

/// The v1 hashes of the first files and of the last, piece by piece; of a torrent that is no hybrid, and past its files, one of each.
fn ask_about_halves(torrent: &[u8], files: u64, compared: &mut Comparison) {
    let about = |entry| Call::new(entry).input(torrent.to_vec());
    let Given::Hybrid(whole) = compared.ask(&about(Entry::TorrentHybrid)).given else { unreachable!() };
    let asked = if whole.hybrid == 1 { some(files).collect() } else { vec![0, files] };
    for file in asked {
        let Given::V1Part(part) = compared.ask(&about(Entry::TorrentV1Pieces).numbers(file, 0)).given else {
            unreachable!()
        };
        for piece in some(part.size / 20) {
            compared.ask(&about(Entry::TorrentV1Piece).numbers(file, piece));
        }
    }
}

/// The same of a torrent that is likely to be refused: one call of each entry point then, and the list without room.
fn ask_some(torrent: &[u8], compared: &mut Comparison) {
    let whole = ask_whole(torrent, compared);
    if whole.number == DONE {
        return ask_about_files(torrent, whole.files, compared);
    }
    for entry in [Entry::TorrentFile, Entry::TorrentPath, Entry::TorrentList] {
        compared.ask(&Call::new(entry).input(torrent.to_vec()).out(vec![0xaa; RECORD]));
    }
    compared.ask(&Call::new(Entry::TorrentList).input(torrent.to_vec()));
    // Both decide by the same number, so that half of the torrents are enough for each; few are too large.
    let parts: &[Entry] = match (whole.number, torrent.len() % 2) {
        (TORRENT_TOO_LARGE, _) => &[Entry::TorrentInfo, Entry::TorrentName],
        (_, 0) => &[Entry::TorrentInfo],
        _ => &[Entry::TorrentName],
    };
    for part in parts {
        compared.ask(&Call::new(*part).input(torrent.to_vec()));
    }
    let halves: &[Entry] = match (whole.number, torrent.len() % 3) {
        (TORRENT_TOO_LARGE | HALVES_DIFFER, _) => {
            &[Entry::TorrentHybrid, Entry::TorrentV1Piece, Entry::TorrentV1Pieces]
        }
        (_, 0) => &[Entry::TorrentHybrid],
        (_, 1) => &[Entry::TorrentV1Piece],
        _ => &[Entry::TorrentV1Pieces],
    };
    for half in halves {
        compared.ask(&Call::new(*half).input(torrent.to_vec()));
    }
}

/// One call of each entry point, about the last file, on a torrent so large that every call takes its time.
pub fn ask_few(torrent: &[u8], compared: &mut Comparison) {
    let about = |entry| Call::new(entry).input(torrent.to_vec());
    let whole = ask_whole(torrent, compared);
    let last = whole.files.saturating_sub(1);
    compared.ask(&about(Entry::TorrentFile).numbers(last, 0));
    compared.ask(&about(Entry::TorrentPath).numbers(last, 0));
    compared.ask(&about(Entry::TorrentList).out(vec![0xaa; whole.files as usize * RECORD]));
    compared.ask(&about(Entry::TorrentHybrid));
    compared.ask(&about(Entry::TorrentV1Pieces).numbers(last, 0));
}

/// Torrents, as long as wanted.
pub fn run(random: &mut Random, compared: &mut Comparison, mut go_on: impl FnMut(&Comparison) -> bool) {
    while go_on(compared) {
        let mut torrent = good(random);
        if random.percent(35) {
            let half = Half::fitting(&mut torrent, random);
            ask_some(&with_a_broken_half(&torrent, &half, random), compared);
            half.put_into(&mut torrent);
        }
        if random.percent(30) {
            ask_some(&torrent.encoded(), compared);
        }
        for _ in 0..random.between(1, 7) {
            ask_some(&damaged(&torrent, random), compared);
        }
    }
}

/// What each byte is changed to: bytes that mean something in bencoding, and some that don't.
const OTHERS: &[u8] = b"dlie01239:-./\0 \x7f\x80\xff";

/// A torrent with each of its bytes changed in turn to each of `OTHERS` and in each bit, taken out, and with one put before it.
pub fn run_through_every_byte(torrent: &[u8], compared: &mut Comparison) {
    for at in 0..torrent.len() {
        let flipped = (0..8).map(|bit| torrent[at] ^ 1 << bit);
        let mut values: Vec<u8> = OTHERS.iter().copied().chain(flipped).filter(|byte| *byte != torrent[at]).collect();
        values.sort();
        values.dedup();
        let (before, behind) = torrent.split_at(at);
        for value in values {
            ask_some(&[before, &[value], &behind[1..]].concat(), compared);
        }
        ask_some(&[before, &behind[1..]].concat(), compared);
        ask_some(&[before, &OTHERS[at % OTHERS.len()..][..1], behind].concat(), compared);
    }
}

/// A torrent cut at each of its bytes.
pub fn run_through_every_cut(torrent: &[u8], compared: &mut Comparison) {
    for size in 0..torrent.len() {
        ask_some(&torrent[..size], compared);
    }
}
