//! What is measured: each job by plain Rust, by careful Rust, by Rust that hashes eight at a time as the library does, and by
//! the library. Plain Rust is first, and the others are compared with it. Each run checks that its version gives what all of
//! them have to.

use crate::measure::{Prepared, Work};
use crate::plain::{self, Hasher};
use crate::scene::{Scene, Size, LARGEST, ONE_GIB, PIECE};
use crate::{asking, careful, framing, lanes, saving, writer, younger};
use host_tests::lists::{self, Planned};
use host_tests::random::Random;
use host_tests::shapes;
use reference::ids::{HAVE, PIECE as PIECE_ID};
use reference::limits::{BLOCK, LONGEST_FILE, RECORD};
use reference::sha1::{sha1, Sha1};
use reference::sha256::{pair, sha256, Hash};
use reference::stream::{Heard, Stream};
use reference::torrent::{contents, contents_by};
use std::hint::black_box;

pub struct Job {
    pub name: String,
    pub entry_point: &'static str,
    /// The ratio to plain Rust that is asked of the library; empty if none is.
    pub asked: &'static str,
    /// Bytes hashed or handed on, for a speed.
    pub bytes: usize,
    /// Instructions are counted of this job.
    pub is_counted: bool,
    /// Its time is taken.
    pub is_timed: bool,
    /// The names of the versions, in their order; the first is what the others are compared with.
    pub versions: Vec<&'static str>,
    pub ready: Box<dyn Fn() -> Vec<Box<dyn Work>>>,
}

/// The shapes whose list is measured too: the ordinary one, the one with the most files, the deepest.
const LISTED: [&str; 3] = [shapes::ORDINARY, "empty-files", "28-elements"];

/// All jobs.
pub fn all() -> Vec<Job> {
    let mut jobs = vec![
        one_by_one("sha-1MiB", "kd_sha256", "", 1 << 20, || hashing(1 << 20)).not_counted(),
        one_by_one("sha-64KiB", "kd_sha256", "0.78", 65536, || hashing(65536)),
        one_by_one("sha-16KiB", "kd_sha256", "", 16384, || hashing(16384)).not_counted(),
        job("sha1-64KiB", "kd_sha1", "0.80", 65536, || hashing_for_v1(65536)).plain_alone(),
        job("take", "kd_take", "0.50", ONE_GIB.reply(), || taking(ONE_GIB)),
        job("take-again", "kd_take", "", ONE_GIB.reply(), taking_again),
        job("serve", "kd_serve", "1.5", ONE_GIB.reply(), || serving(ONE_GIB)),
        job("take-8192", "kd_take", "0.75", LARGEST.reply(), || taking(LARGEST)),
        job("serve-8192", "kd_serve", "", LARGEST.reply(), || serving(LARGEST)),
        in_library("open-16GiB", "none", "kd_open", "", largest_store(), opening),
        in_library("layer-16GiB", "one-by-one", "kd_load_layer", "", 32 * LONGEST_LAYER, loading_longest),
        job("piece-1MiB", "kd_judge_piece", "0.36", PIECE as usize, judging),
        job("hybrid-piece-1MiB", "kd_judge_hybrid_piece", "0.75", PIECE as usize, judging_both).plain_alone(),
        in_library("hashes-1MiB", "kd_judge_piece", "kd_piece_hashes", "", PIECE as usize, teaching),
        job("load-layer", "kd_load_layer", "0.70", 32 * PIECES, loading),
        job("history-256KiB", "kd_history_more", "0.40", LOGGED, logging_in_rust),
        job("next-last-leaf", "kd_next_request", "", 1 << 20, asking::last_leaf).plain_alone(),
        in_library("next-all-leaves", "none", "kd_next_request", "", 1 << 20, asking::all_leaves),
        job("pick-last-piece", "kd_pick_piece", "", 1 << 20, asking::last_piece).plain_alone(),
        in_library("pick-all-pieces", "none", "kd_pick_piece", "", 1 << 20, asking::all_pieces),
        job("extends-1-byte", "kd_extends", "", 1, || younger::extending(1)).plain_alone(),
        job("extends-blocks", "kd_extends", "", 1, || younger::extending(LONGEST_FILE - BLOCK)).plain_alone(),
        job("extends-inside", "kd_extends", "", BLOCK as usize, || younger::extending(LONGEST_FILE - 1)).plain_alone(),
        job("extends-half", "kd_extends", "", BLOCK as usize, || younger::extending(LONGEST_FILE / 2 + 1))
            .plain_alone(),
    ];
    #[cfg(has_hash8)]
    jobs.push(job("eight-blocks", "lanes::hash8", "0.36", 8 * 16384, eight_blocks));
    #[cfg(has_pair)]
    jobs.push(one_by_one("1024-pairs", "sha256::pair", "0.70", 64 * pairs::COUNT, pairs::pairing));
    jobs.extend([
        in_library("bursts-1MiB", "at-once", "kd_hashing_more", "1.05", 1 << 20, bursts),
        in_library("bursts-1-byte", "none", "kd_hashing_more", "", 1, one_byte),
        in_library("history-16MiB", "one-by-one", "kd_history_more", "1.05", LOGGED, logging),
        in_library("history-1-byte", "none", "kd_history_more", "", 1, one_byte_logged),
    ]);
    jobs.extend(shapes::ALL.iter().map(|shape| on_torrent(shape, "kd_torrent_read", reading)));
    let listed = shapes::ALL.iter().filter(|shape| LISTED.contains(&shape.name));
    jobs.extend(listed.map(|shape| on_torrent(shape, "kd_torrent_list", listing)).map(Job::plain_alone));
    jobs.extend(lists::GOOD.iter().map(on_list));
    jobs.extend(on_streams());
    jobs.extend(on_saves());
    jobs
}

fn job(
    name: &'static str,
    entry_point: &'static str,
    asked: &'static str,
    bytes: usize,
    ready: impl Fn() -> Vec<Box<dyn Work>> + 'static,
) -> Job {
    let versions = vec!["plain-rust", "careful-rust", "eight-lane-rust", entry_point];
    Job {
        name: name.to_string(),
        entry_point,
        asked,
        bytes,
        is_counted: true,
        is_timed: true,
        versions,
        ready: Box::new(ready),
    }
}

/// A job of hashes that come one after the other, so that none are side by side.
fn one_by_one(
    name: &'static str,
    entry_point: &'static str,
    asked: &'static str,
    bytes: usize,
    ready: impl Fn() -> Vec<Box<dyn Work>> + 'static,
) -> Job {
    Job { versions: vec!["plain-rust", "careful-rust", entry_point], ..job(name, entry_point, asked, bytes, ready) }
}

/// A job that has the library alone: an entry point, and other calls that do the same.
fn in_library(
    name: &'static str,
    others: &'static str,
    entry_point: &'static str,
    asked: &'static str,
    bytes: usize,
    ready: impl Fn() -> Vec<Box<dyn Work>> + 'static,
) -> Job {
    Job { versions: vec![others, entry_point], ..job(name, entry_point, asked, bytes, ready) }
}

/// The ratios asked of reading a torrent.
const ASKED: [(&str, &str); 4] =
    [(shapes::ORDINARY, "3.0"), ("one-layer", "0.36"), ("many-layers", "1.8"), (shapes::HYBRID, "1.8")];

/// A job on a torrent of one shape.
fn on_torrent(shape: &shapes::Shape, entry_point: &'static str, ready: fn(Vec<u8>, u32) -> Vec<Box<dyn Work>>) -> Job {
    let (make, number) = (shape.make, shape.number);
    let asked = ASKED.iter().find(|(name, _)| *name == shape.name).map_or("", |(_, asked)| *asked);
    let job = job(shape.name, entry_point, asked, 1 << 20, move || ready(make(), number));
    Job { name: format!("{}:{}", &entry_point["kd_torrent_".len()..], shape.name), ..job }
}

/// A torrent written of a list, asked for the ratio if it is the ordinary one.
fn on_list(list: &lists::Shape) -> Job {
    let make = list.make;
    let asked = if list.name == lists::ORDINARY { "2.0" } else { "" };
    let job = job(list.name, "kd_torrent_write", asked, 1 << 20, move || writing(make()));
    Job { name: format!("write:{}", list.name), ..job }.plain_alone()
}

impl Job {
    fn not_counted(self) -> Job {
        Job { is_counted: false, ..self }
    }

    fn not_timed(self) -> Job {
        Job { is_timed: false, ..self }
    }

    /// Plain Rust that copies by the C library, and in chunks, and the library.
    fn in_two_ways(self) -> Job {
        Job { versions: vec!["plain-rust", "in-chunks-rust", self.entry_point], ..self }
    }

    /// Plain Rust and the library, no other version.
    fn plain_alone(self) -> Job {
        Job { versions: vec!["plain-rust", self.entry_point], ..self }
    }
}

type Sha256 = fn(&[u8]) -> Hash;

/// The versions in Rust differ in their SHA-256 only; the last one hashes what is left over from eight as careful Rust does.
const IN_RUST: [Hasher; 3] = [
    Hasher { one: sha256, eight: None },
    Hasher { one: careful::sha256, eight: None },
    Hasher { one: careful::sha256, eight: Some(lanes::hash8) },
];
const ONE_BY_ONE: [Sha256; 2] = [sha256, careful::sha256];

fn work<S: 'static>(state: S, prepare: fn(&mut S), run: fn(&mut S)) -> Box<dyn Work> {
    Box::new(Prepared { state, prepare, run })
}

fn bytes(size: usize) -> Vec<u8> {
    (0..size).map(|i| (i * 7 + i / 251) as u8).collect()
}

fn hashing(size: usize) -> Vec<Box<dyn Work>> {
    let of_version =
        |hash: Sha256| work((hash, bytes(size)), |_| (), |(hash, data)| _ = black_box(hash(black_box(data))));
    let by_library: Sha256 = |data| boundary::sha256(data).hash.bytes;
    ONE_BY_ONE.into_iter().chain([by_library]).map(of_version).collect()
}

/// SHA-1, as the v1 half of a hybrid has it.
fn hashing_for_v1(size: usize) -> Vec<Box<dyn Work>> {
    let of_version = |hash: fn(&[u8]) -> Sha1| {
        work((hash, bytes(size)), |_| (), |(hash, data)| _ = black_box(hash(black_box(data))))
    };
    let by_library: fn(&[u8]) -> Sha1 = |data| boundary::sha1(data).hash.bytes;
    [sha1, by_library].map(of_version).into()
}

/// SHA-256 in bursts of 16 KiB, against the same bytes at once.
fn bursts() -> Vec<Box<dyn Work>> {
    let at_once: Sha256 = |data| boundary::sha256(data).hash.bytes;
    let in_bursts: Sha256 = |data| {
        let begun = boundary::hashing_begin();
        let state = data.chunks(16384).fold(begun, |state, burst| boundary::hashing_more(state, burst).state);
        boundary::hashing_end(state).hash.bytes
    };
    let of_version =
        |hash: Sha256| work((hash, bytes(1 << 20)), |_| (), |(hash, data)| _ = black_box(hash(black_box(data))));
    [at_once, in_bursts].map(of_version).into()
}

/// A thousand bursts of a byte that complete no block, against none.
fn one_byte() -> Vec<Box<dyn Work>> {
    let once = || {
        work(
            boundary::hashing_begin(),
            |_| (),
            |state| {
                for _ in 0..1000 {
                    black_box(boundary::hashing_more(black_box(*state), black_box(b"x")));
                }
            },
        )
    };
    vec![work((), |_| (), |_| ()), once()]
}

const LOGGED: usize = 16 << 20;
const LOGGED_PIECE: usize = 1 << 20;

/// A history of 16 MiB in bursts of 4 KiB, against its blocks and pairs hashed one by one.
fn logging() -> Vec<Box<dyn Work>> {
    let one_by_one = work(
        bytes(LOGGED),
        |_| (),
        |data| {
            let mut row: Vec<Hash> = data.chunks(16384).map(|block| boundary::sha256(block).hash.bytes).collect();
            while row.len() > 1 {
                row = row.chunks(2).map(|pair| boundary::sha256(&pair.concat()).hash.bytes).collect();
            }
            black_box(row);
        },
    );
    let in_bursts = work(
        (bytes(LOGGED), vec![0; 32 * LOGGED / LOGGED_PIECE]),
        |_| (),
        |(data, layer)| {
            let mut state = boundary::history_begin(LOGGED_PIECE as u64).state;
            for burst in data.chunks(4096) {
                state = boundary::history_more(state, burst, layer).state;
            }
            assert_eq!(black_box(boundary::history_end(state, layer)).length, LOGGED as u64);
        },
    );
    vec![one_by_one, in_bursts]
}

/// A history of 16 MiB in bursts of 256 KiB, against its blocks and pairs hashed at once in Rust.
fn logging_in_rust() -> Vec<Box<dyn Work>> {
    let in_rust = IN_RUST.map(|hasher| {
        work(
            (hasher, bytes(LOGGED)),
            |_| (),
            |(hasher, data)| _ = black_box(hasher.root(hasher.parts(black_box(data), 16384))),
        )
    });
    let in_bursts = work(
        (bytes(LOGGED), vec![0; 32 * LOGGED / LOGGED_PIECE]),
        |_| (),
        |(data, layer)| {
            let mut state = boundary::history_begin(LOGGED_PIECE as u64).state;
            for burst in data.chunks(256 << 10) {
                state = boundary::history_more(state, burst, layer).state;
            }
            assert_eq!(black_box(boundary::history_end(state, layer)).length, LOGGED as u64);
        },
    );
    in_rust.into_iter().chain([in_bursts]).collect()
}

/// The pieces of a file of 1 GiB, each a block.
const PIECES: usize = 65536;

/// Loading a piece layer of so many into a store that holds the root alone.
fn loading() -> Vec<Box<dyn Work>> {
    let hashes: Vec<Hash> = (0..PIECES).map(|i| [i as u8 ^ (i >> 8) as u8; 32]).collect();
    let (length, layer, root) = (16384 * PIECES as u64, hashes.concat(), IN_RUST[2].root(hashes));
    let in_rust = IN_RUST.map(|hasher| {
        let store = plain::Store::open(length, 16384, root, hasher);
        let forget = |(store, _): &mut (plain::Store, Vec<u8>)| store.nodes[2..].fill(None);
        work((store, layer.clone()), forget, |(store, layer)| {
            assert_eq!(store.load_layer(black_box(layer)), Some(2 * PIECES as u64 - 2));
        })
    });
    let mut store = vec![0; boundary::store_size(length, 16384).count as usize];
    boundary::open(&mut store, length, 16384, boundary::Hash { bytes: root });
    let forget = |(store, _): &mut (Vec<u8>, Vec<u8>)| store[64 + 33..].fill(0);
    let in_library = work((store, layer), forget, |(store, layer)| {
        assert_eq!(boundary::load_layer(store, black_box(layer)).count, 2 * PIECES as u64 - 2);
    });
    in_rust.into_iter().chain([in_library]).collect()
}

/// A thousand bursts of a byte, each from the empty history, against none.
fn one_byte_logged() -> Vec<Box<dyn Work>> {
    let once = || {
        work(
            boundary::history_begin(16384).state,
            |_| (),
            |state| {
                for _ in 0..1000 {
                    black_box(boundary::history_more(black_box(*state), black_box(b"x"), &mut []));
                }
            },
        )
    };
    vec![work((), |_| (), |_| ()), once()]
}

/// The parents of two hashes, one after the other. The library's function for it is not exported: build.rs makes it visible.
#[cfg(has_pair)]
mod pairs {
    use super::*;

    pub const COUNT: usize = 1024;

    extern "C" {
        #[link_name = "sha256::pair"]
        fn library_pair(parent: &mut Hash, left: &Hash, right: &Hash);
    }

    type Pair = fn(&Hash, &Hash) -> Hash;

    fn joined(left: &Hash, right: &Hash) -> [u8; 64] {
        let mut both = [0; 64];
        both[..32].copy_from_slice(left);
        both[32..].copy_from_slice(right);
        both
    }

    fn by_library(left: &Hash, right: &Hash) -> Hash {
        let mut parent = [0; 32];
        // SAFETY: it reads two hashes and writes one, at the places it is given.
        unsafe { library_pair(&mut parent, left, right) };
        parent
    }

    /// Each pair is the last parent beside the first.
    fn chain(pair: Pair) -> Hash {
        let first = [7; 32];
        (0..COUNT).fold(first, |last, _| pair(black_box(&last), black_box(&first)))
    }

    pub fn pairing() -> Vec<Box<dyn Work>> {
        let versions: [Pair; 3] = [|l, r| sha256(&joined(l, r)), |l, r| careful::sha256(&joined(l, r)), by_library];
        let last = chain(versions[0]);
        let of_version = |pair: Pair| work((pair, last), |_| (), |(pair, last)| assert_eq!(chain(*pair), *last));
        versions.map(of_version).into_iter().collect()
    }
}

/// Eight blocks of 16 KiB. The library's function for it is not exported either, and takes a slice by where it stands.
#[cfg(has_hash8)]
fn eight_blocks() -> Vec<Box<dyn Work>> {
    #[repr(C)]
    struct Slice {
        start: *const u8,
        size: usize,
    }
    extern "C" {
        #[link_name = "lanes::hashes::hash8"]
        fn library_hash8(hashes: &mut [u8; 256], data: &Slice);
    }
    let data = bytes(8 * 16384);
    let hashes = IN_RUST[0].parts(&data, 16384);
    let in_rust = IN_RUST.map(|hasher| {
        work(
            (hasher, data.clone(), hashes.clone()),
            |_| (),
            |(hasher, data, hashes)| assert_eq!(black_box(hasher.parts(black_box(data), 16384)), *hashes),
        )
    });
    let in_library = work(
        (data, hashes.concat()),
        |_| (),
        |(data, hashes)| {
            let mut given = [0; 256];
            // SAFETY: it reads the bytes that are lent, and writes eight hashes.
            unsafe { library_hash8(&mut given, &Slice { start: data.as_ptr(), size: data.len() }) };
            assert_eq!(black_box(given), hashes[..])
        },
    );
    in_rust.into_iter().chain([in_library]).collect()
}

/// A store in plain Rust with what a job needs beside it.
struct InRust {
    store: plain::Store,
    message: Vec<u8>,
    nodes: Vec<usize>,
    reply: Vec<u8>,
}

/// A store of the library with what a job needs beside it.
struct InLibrary {
    store: Vec<u8>,
    message: Vec<u8>,
    nodes: Vec<usize>,
    out: Vec<u8>,
}

impl InRust {
    fn new(scene: &Scene, hasher: Hasher, message: Vec<u8>) -> InRust {
        let store = plain::Store::open(scene.facts.length, PIECE, scene.facts.root, hasher);
        InRust { store, message, nodes: scene.nodes(), reply: Vec::with_capacity(scene.size.reply()) }
    }

    /// With everything held that the reply settles.
    fn told(scene: &Scene, hasher: Hasher, message: Vec<u8>) -> InRust {
        let mut state = InRust::new(scene, hasher, message);
        for (node, (_, hash)) in state.nodes.iter().zip(&scene.settled) {
            state.store.nodes[*node] = Some(*hash);
        }
        state
    }

    /// The root alone is held again.
    fn forget(&mut self) {
        for node in self.nodes.iter().filter(|node| **node != 1) {
            self.store.nodes[*node] = None;
        }
    }

    fn take(&mut self) -> Option<u64> {
        black_box(self.store.take(black_box(&self.message)))
    }

    fn serve(&mut self) -> bool {
        black_box(self.store.serve(black_box(&self.message), &mut self.reply))
    }

    fn judge(&mut self) -> bool {
        black_box(self.store.judge_piece(ONE_GIB.piece_number() as usize, black_box(&self.message)))
    }
}

impl InLibrary {
    fn new(scene: &Scene, store: Vec<u8>, message: Vec<u8>) -> InLibrary {
        InLibrary { store, message, nodes: scene.nodes(), out: vec![0; scene.size.reply()] }
    }

    fn forget(&mut self) {
        for node in self.nodes.iter().filter(|node| **node != 1) {
            self.store[64 + 33 * (node - 1)..][..33].fill(0);
        }
    }

    fn take(&mut self) -> boundary::Answer {
        black_box(boundary::take(&mut self.store, black_box(&self.message)))
    }

    fn serve(&mut self) -> boundary::Answer {
        black_box(boundary::serve(&self.store, black_box(&self.message), &mut self.out))
    }

    fn teach(&mut self) -> boundary::Answer {
        let piece = ONE_GIB.piece_number();
        black_box(boundary::piece_hashes(&self.store, piece, black_box(&self.message), &mut self.out))
    }

    fn judge(&mut self) -> boundary::Answer {
        black_box(boundary::judge_piece(&mut self.store, ONE_GIB.piece_number(), black_box(&self.message)))
    }
}

/// Taking the reply on a store that holds its anchor, the root, and nothing else: all settled positions but one are new.
fn taking(size: Size) -> Vec<Box<dyn Work>> {
    let scene = Scene::without_bytes(size);
    let in_rust = IN_RUST.map(|hasher| {
        let state = InRust::new(&scene, hasher, scene.reply());
        work(state, InRust::forget, |state| assert_eq!(state.take(), Some(state.nodes.len() as u64 - 1)))
    });
    let state = InLibrary::new(&scene, scene.opened(), scene.reply());
    let in_library =
        work(state, InLibrary::forget, |state| assert_eq!(state.take().count, state.nodes.len() as u64 - 1));
    in_rust.into_iter().chain([in_library]).collect()
}

/// Taking it once more.
fn taking_again() -> Vec<Box<dyn Work>> {
    let scene = Scene::without_bytes(ONE_GIB);
    let in_rust = IN_RUST.map(|hasher| {
        let state = InRust::told(&scene, hasher, scene.reply());
        work(state, |_| (), |state| assert_eq!(state.take(), Some(0)))
    });
    let state = InLibrary::new(&scene, scene.told(), scene.reply());
    let in_library = work(state, |_| (), |state| assert_eq!(state.take().number, 0));
    in_rust.into_iter().chain([in_library]).collect()
}

/// Serving the request that the reply answers.
fn serving(size: Size) -> Vec<Box<dyn Work>> {
    let scene = Scene::without_bytes(size);
    let in_rust = IN_RUST.map(|hasher| {
        let state = InRust::told(&scene, hasher, scene.request());
        work(state, |_| (), |state| assert!(state.serve() && state.reply.len() == state.reply.capacity()))
    });
    let state = InLibrary::new(&scene, scene.told(), scene.request());
    let in_library = work(state, |_| (), |state| assert_eq!(state.serve().count, state.out.len() as u64));
    in_rust.into_iter().chain([in_library]).collect()
}

/// A piece, and a scene whose run begins with its leaves.
fn piece_in_scene() -> (Vec<u8>, Scene) {
    let piece = bytes(PIECE as usize);
    let mut leaves: Vec<Hash> = piece.chunks(16384).map(sha256).collect();
    leaves.resize(ONE_GIB.run as usize, [1; 32]);
    (piece, Scene::new(ONE_GIB, leaves))
}

/// A piece's hashes written, beside the same piece judged: both hash it, the first twice.
fn teaching() -> Vec<Box<dyn Work>> {
    let (piece, scene) = piece_in_scene();
    let judged = InLibrary::new(&scene, scene.told(), piece.clone());
    let taught = InLibrary::new(&scene, scene.told(), piece);
    vec![
        work(judged, |_| (), |state| assert_eq!(state.judge().number, 0)),
        work(taught, |_| (), |state| assert_eq!(state.teach().count, 49 + PIECE / 512)),
    ]
}

/// Judging the piece that the run begins with, its leaves and its node held.
fn judging() -> Vec<Box<dyn Work>> {
    let (piece, scene) = piece_in_scene();
    let in_rust = IN_RUST.map(|hasher| {
        let state = InRust::told(&scene, hasher, piece.clone());
        work(state, |_| (), |state| assert!(state.judge()))
    });
    let state = InLibrary::new(&scene, scene.told(), piece.clone());
    let in_library = work(state, |_| (), |state| assert_eq!(state.judge().number, 0));
    in_rust.into_iter().chain([in_library]).collect()
}

/// The same by both halves of a hybrid: for plain Rust its v2 half and SHA-1 one after the other.
fn judging_both() -> Vec<Box<dyn Work>> {
    let (piece, scene) = piece_in_scene();
    let v1 = sha1(&piece);
    let in_rust = work(
        (InRust::told(&scene, IN_RUST[0], piece.clone()), v1),
        |_| (),
        |(state, v1)| assert!(state.judge() && black_box(sha1(black_box(&state.message))) == *v1),
    );
    let in_library = work(
        (InLibrary::new(&scene, scene.told(), piece), v1),
        |_| (),
        |(state, v1)| {
            let (number, v1) = (ONE_GIB.piece_number(), boundary::Sha1Hash { bytes: *v1 });
            let judged = boundary::judge_hybrid_piece(&mut state.store, number, black_box(&state.message), v1, 0);
            assert_eq!(black_box(judged).number, 0)
        },
    );
    vec![in_rust, in_library]
}

const LONGEST_LAYER: usize = (LONGEST_FILE / BLOCK) as usize;

fn largest_store() -> usize {
    boundary::store_size(LONGEST_FILE, BLOCK).count as usize
}

/// The longest file in the smallest pieces, so with the longest layer; the hash above equal ones is worked out once for each.
struct Longest {
    store: Vec<u8>,
    root: Hash,
    layer: Vec<Hash>,
}

impl Longest {
    fn new() -> Longest {
        let root = (0..LONGEST_LAYER.ilog2()).fold([7; 32], |below, _| pair(&below, &below));
        Longest { store: vec![0; largest_store()], root, layer: vec![[7; 32]; LONGEST_LAYER] }
    }

    fn open(&mut self) {
        let root = boundary::Hash { bytes: self.root };
        assert_eq!(black_box(boundary::open(&mut self.store, LONGEST_FILE, BLOCK, root)).number, 0);
    }

    fn load(&mut self) {
        let loaded = black_box(boundary::load_layer(&mut self.store, black_box(self.layer.as_flattened())));
        assert_eq!(loaded.count, 2 * LONGEST_LAYER as u64 - 2);
    }
}

/// Opening the largest store, against nothing.
fn opening() -> Vec<Box<dyn Work>> {
    vec![work((), |_| (), |_| ()), work(Longest::new(), |_| (), Longest::open)]
}

/// Loading the longest layer, against its pairs hashed one by one up to the root.
fn loading_longest() -> Vec<Box<dyn Work>> {
    let one_by_one = work(
        Longest::new(),
        |_| (),
        |longest| {
            let mut row = longest.layer.clone();
            while row.len() > 1 {
                row = row.chunks(2).map(|pair| boundary::sha256(pair.as_flattened()).hash.bytes).collect();
            }
            assert_eq!(black_box(row), [longest.root]);
        },
    );
    let mut longest = Longest::new();
    longest.open();
    vec![one_by_one, work(longest, Longest::open, Longest::load)]
}

/// Reading a torrent as a whole. Plain Rust is host/reference's reader, which has all files then; the others in Rust are that reader
/// with their SHA-256.
fn reading(torrent: Vec<u8>, number: u32) -> Vec<Box<dyn Work>> {
    let plain = work(
        (torrent.clone(), number),
        |_| (),
        |(torrent, number)| {
            assert_eq!(black_box(contents(black_box(torrent))).map_or_else(|number| number, |_| 0), *number)
        },
    );
    let by = |hasher: Hasher| {
        work(
            (torrent.clone(), number, hasher),
            |_| (),
            |(torrent, number, hasher)| {
                let read = contents_by(black_box(torrent), hasher.one, |row| hasher.root(row));
                assert_eq!(black_box(read).map_or_else(|number| number, |_| 0), *number)
            },
        )
    };
    let [_, careful, eight_lanes] = IN_RUST.map(by);
    let in_library = work(
        (torrent.clone(), number),
        |_| (),
        |(torrent, number)| assert_eq!(black_box(boundary::torrent_read(black_box(torrent))).number, *number),
    );
    vec![plain, careful, eight_lanes, in_library]
}

/// All files with their paths: for plain Rust the same reading, for the library the list.
fn listing(torrent: Vec<u8>, number: u32) -> Vec<Box<dyn Work>> {
    let room = vec![0; contents(&torrent).map_or(0, |all| all.files.len() * RECORD)];
    let in_rust = reading(torrent.clone(), number).swap_remove(0);
    let in_library = work(
        (torrent, room, number),
        |_| (),
        |(torrent, room, number)| {
            assert_eq!(black_box(boundary::torrent_list(black_box(torrent), room)).number, *number)
        },
    );
    vec![in_rust, in_library]
}

/// The same files, for plain Rust as a `Vec` of structs, for the library as a list.
fn writing(files: Vec<Planned>) -> Vec<Box<dyn Work>> {
    let written = lists::written_down(&files, lists::Placing::Apart(0));
    let torrent = writer::write(&files, lists::PIECE_LENGTH, b"x").expect("a good list");
    let out = vec![0; torrent.len()];
    let in_rust = work(
        (files, torrent.clone()),
        |_| (),
        |(files, torrent)| {
            let written = black_box(writer::write(black_box(files), lists::PIECE_LENGTH, b"x"));
            assert_eq!(written.as_ref(), Ok(&*torrent))
        },
    );
    let in_library = work(
        (written, out, torrent),
        |_| (),
        |(lists::Written { list, text }, out, torrent)| {
            let given = black_box(boundary::torrent_write(black_box(list), text, lists::PIECE_LENGTH, b"x", out));
            assert_eq!((given.number, &*out), (0, &*torrent))
        },
    );
    vec![in_rust, in_library]
}

/// How much of a stream is heard.
const STREAMED: usize = 1 << 20;

/// A stream of such messages, each in its frame, cut into pieces of a size, or of any size up to 3000 for 0.
#[derive(Clone)]
struct Pieces {
    bytes: Vec<u8>,
    cuts: Vec<usize>,
    messages: usize,
}

fn cut(message: &[u8], size: usize) -> Pieces {
    let frame = [&(message.len() as u32).to_be_bytes()[..], message].concat();
    let messages = STREAMED / frame.len();
    let bytes = frame.repeat(messages);
    let mut random = Random::new(1);
    let mut cuts = vec![0];
    while cuts[cuts.len() - 1] < bytes.len() {
        let size = if size == 0 { random.between(1, 3000) as usize } else { size };
        cuts.push(bytes.len().min(cuts[cuts.len() - 1] + size));
    }
    Pieces { bytes, cuts, messages }
}

type Hear = fn(Stream, &[u8], &mut [u8]) -> Heard;

/// Offers all pieces, each until it is used up, and counts the messages.
fn hear_all(hear: Hear, pieces: &Pieces, room: &mut [u8]) -> usize {
    let mut state = Stream::default();
    let mut messages = 0;
    for ends in pieces.cuts.windows(2) {
        let mut piece = &pieces.bytes[ends[0]..ends[1]];
        loop {
            let heard = hear(state, piece, room);
            (state, piece) = (heard.state, &piece[heard.used as usize..]);
            messages += heard.event as usize;
            if heard.event == 0 {
                break;
            }
        }
    }
    messages
}

#[inline(always)]
fn hear_in_library(state: Stream, data: &[u8], room: &mut [u8]) -> Heard {
    let Stream { length, length_size, read, mode } = state;
    let given = boundary::stream_hear(boundary::Stream { length, length_size, read, mode }, data, room);
    let boundary::Stream { length, length_size, read, mode } = given.state;
    let state = Stream { length, length_size, read, mode };
    Heard { number: given.number, event: given.event, used: given.used, size: given.size, state }
}

fn hearing(message: Vec<u8>, size: usize) -> Vec<Box<dyn Work>> {
    let pieces = cut(&message, size);
    let hears: [Hear; 3] = [framing::hear::<false>, framing::hear::<true>, hear_in_library];
    let version = |hear: Hear| {
        work(
            (hear, pieces.clone(), vec![0u8; message.len()]),
            |_| (),
            |(hear, pieces, room)| assert_eq!(hear_all(*hear, black_box(pieces), room), pieces.messages),
        )
    };
    hears.map(version).into()
}

/// A message of a block, framed again and again.
fn sending(message: Vec<u8>) -> Vec<Box<dyn Work>> {
    let version = |frame: fn(&[u8], &mut [u8]) -> u32| {
        work(
            (frame, message.clone(), vec![0u8; message.len() + 4]),
            |_| (),
            |(frame, message, out)| (0..64).for_each(|_| assert_eq!(frame(black_box(message), black_box(out)), 0)),
        )
    };
    vec![
        version(|message, out| framing::frame::<false>(message, out).number),
        version(|message, out| framing::frame::<true>(message, out).number),
        version(|message, out| boundary::frame(message, out).number),
    ]
}

/// The blocks of a file of 1 GiB; of one that is half padding, in a tree of the same height; of the longest file.
const SAVED: [(usize, &str); 3] = [(1 << 16, "1GiB"), ((1 << 15) + 1, "padded"), (LONGEST_LAYER, "16GiB")];

/// Stores saved, loaded and repaired.
fn on_saves() -> Vec<Job> {
    let mut jobs = Vec::new();
    for (blocks, name) in SAVED {
        let size = saving::Full::new(blocks).saved_size();
        let load = job("load", "kd_load", "1.3", size, move || saving::loading(blocks, IN_RUST));
        jobs.push(Job { name: format!("load-{name}"), ..load });
        let repair =
            in_library("repair", "kd_load", "kd_repair", "", size, move || saving::repairing(blocks, IN_RUST[0]));
        jobs.push(Job { name: format!("repair-{name}"), ..repair });
        let save = job("save", "kd_save", "2.0", size, move || saving::saving(blocks, IN_RUST[0]));
        let versions = vec!["copy-rust", "in-chunks-rust", "plain-rust", "kd_save"];
        jobs.push(Job { name: format!("save-{name}"), versions, ..save });
    }
    let too_long = |job: &Job| job.name.ends_with("16GiB");
    jobs.into_iter().map(|job| if too_long(&job) { job.not_timed() } else { job }).collect()
}

/// A message with a block of a file.
fn block_message() -> Vec<u8> {
    [&[PIECE_ID, 0, 0, 0, 1, 0, 0, 0, 0], &bytes(BLOCK as usize)[..]].concat()
}

/// Streams of blocks and of `have`, cut in several ways, and blocks framed.
fn on_streams() -> Vec<Job> {
    let mut jobs = Vec::new();
    let ways = [(1, "1", "1.5"), (1448, "1448", "1.5"), (16384, "16384", "1.3"), (0, "any", "1.5")];
    for (size, name, asked) in ways {
        let blocks = job("hear", "kd_stream_hear", asked, STREAMED, move || hearing(block_message(), size));
        jobs.push(Job { name: format!("hear:blocks-{name}"), ..blocks }.in_two_ways());
    }
    for (size, name, _) in ways {
        let have = job("hear", "kd_stream_hear", "1.5", STREAMED, move || hearing(vec![HAVE, 0, 0, 0, 7], size));
        jobs.push(Job { name: format!("hear:have-{name}"), ..have }.in_two_ways());
    }
    jobs.push(job("frame-16KiB", "kd_frame", "1.3", 64 << 14, || sending(block_message())).in_two_ways());
    jobs
}
