//! The session of document 01 through the binding, on five blocks in pieces of four. The tree is made by host/reference.

use kombudeva::{sha1, sha256, store_size, Hashing, History, Refusal, Repaired, Request, Store, Torrent};
use reference::limits::BLOCK;
use reference::messages::{Header, HASHES, REJECT, REQUEST};
use reference::tree::{of_file, Position};
use std::collections::HashMap;
use std::io::{self, Write};

const LENGTH: u64 = 5 * BLOCK;
const PIECE: u64 = 4 * BLOCK;

struct Known {
    bytes: Vec<u8>,
    tree: HashMap<Position, [u8; 32]>,
}

fn known() -> Known {
    let bytes: Vec<u8> = (0..LENGTH).map(|i| (i * 7 + i / 251) as u8).collect();
    let tree = of_file(&bytes).into_iter().collect();
    Known { bytes, tree }
}

impl Known {
    fn at(&self, layer: u64, index: u64) -> [u8; 32] {
        self.tree[&Position { layer, index }]
    }

    fn root(&self) -> [u8; 32] {
        self.at(3, 0)
    }

    fn header(&self, [base, index, length, proof]: [u32; 4]) -> Header {
        Header { root: self.root(), base, index, length, proof }
    }

    fn message(&self, words: [u32; 4]) -> Vec<u8> {
        let header = self.header(words);
        let hashes = header.given_positions().into_iter().flat_map(|at| self.tree[&at]);
        header.write(HASHES).into_iter().chain(hashes).collect()
    }

    fn open<'a>(&self, memory: &'a mut Vec<u8>) -> Store<&'a mut [u8]> {
        memory.resize(store_size(LENGTH, PIECE).unwrap(), 0xaa);
        Store::open(&mut memory[..], LENGTH, PIECE, self.root()).unwrap()
    }

    fn block(&self, block: u64) -> &[u8] {
        &self.bytes[(block * BLOCK) as usize..][..BLOCK as usize]
    }
}

#[test]
fn a_hash() {
    assert_eq!(sha256(b"abc"), Ok(reference::sha256::sha256(b"abc")));
}

#[test]
fn the_session_of_the_document() {
    let known = known();
    let mut memory = Vec::new();
    let mut store = known.open(&mut memory);
    assert_eq!(store.held(3, 0), Ok(known.root()));
    let leaves = known.message([0, 0, 4, 1]);
    assert_eq!(store.take(&leaves), Err(Refusal::NoAnchor));
    assert_eq!(store.take(&known.message([2, 0, 2, 0])), Ok(2));
    assert_eq!(store.take(&leaves), Ok(6));
    assert_eq!(store.take(&leaves), Ok(0));
    assert_eq!(store.held(0, 3), Ok(known.at(0, 3)));
    assert_eq!(store.held(0, 4), Err(Refusal::NoAnchor));
    assert_eq!(store.held(0, 8), Err(Refusal::RuleBroken));
    assert_eq!(store.take_reject(&known.header([0, 4, 4, 2]).write(REJECT)), Ok(()));
    assert_eq!(store.take_reject(&leaves), Err(Refusal::NoMessage));
}

#[test]
fn refusals_change_nothing() {
    let known = known();
    let mut memory = Vec::new();
    let mut store = known.open(&mut memory);
    let before = store.bytes().to_vec();
    let mut damaged = known.message([0, 0, 8, 0]);
    damaged[60] ^= 1;
    assert_eq!(store.take(&damaged), Err(Refusal::Differs));
    assert_eq!(store.take(&damaged[..100]), Err(Refusal::WrongSize));
    assert_eq!(store.take(&[]), Err(Refusal::NoMessage));
    assert_eq!(store.bytes(), before);
}

#[test]
fn any_bytes_may_be_lent() {
    let mut none = [0; 0];
    assert_eq!(Store::over(&none).held(0, 0), Err(Refusal::Unusable));
    assert_eq!(Store::over(&mut [0xff; 500]).take(&[22; 49]), Err(Refusal::Unusable));
    assert_eq!(Store::open(&mut none, 0, PIECE, [0; 32]), Err(Refusal::FactsOutOfRange));
    assert_eq!(Store::open(&mut none, 1, PIECE, [0; 32]), Err(Refusal::Unusable));
    assert_eq!(store_size(1, 16385), Err(Refusal::FactsOutOfRange));
}

#[test]
fn a_store_is_found_again_in_its_bytes() {
    let known = known();
    let mut memory = Vec::new();
    assert_eq!(known.open(&mut memory).take(&known.message([0, 0, 8, 0])), Ok(14));
    assert_eq!(Store::over(&memory[..]).held(0, 4), Ok(known.at(0, 4)));
}

#[test]
fn serving() {
    let known = known();
    let mut memory = Vec::new();
    let mut store = known.open(&mut memory);
    let request = known.header([0, 4, 4, 2]).write(REQUEST);
    let mut out = [0; 300];
    let served = store.serve(&request, &mut out);
    assert_eq!((served.answer, served.reply), (Err(Refusal::NotHeld), &known.header([0, 4, 4, 2]).write(REJECT)[..]));
    assert_eq!(store.take(&known.message([0, 0, 8, 0])), Ok(14));
    let served = store.serve(&request, &mut out);
    assert_eq!((served.answer, served.reply), (Ok(()), &known.message([0, 4, 4, 2])[..]));
    let served = store.serve(&request, &mut out[..208]);
    assert_eq!((served.answer, served.reply), (Err(Refusal::NoRoom), &[][..]));
}

#[test]
fn marks() {
    let known = known();
    let mut memory = Vec::new();
    let mut store = known.open(&mut memory);
    let layer = [known.at(2, 0), known.at(2, 1)].concat();
    let (first, last) = known.bytes.split_at(PIECE as usize);
    let mut field = [0xff; 2];
    assert_eq!(store.load_layer(&layer), Ok(2));
    assert_eq!(store.bitfield(&mut field), Ok(&[0][..]), "nothing was judged yet");
    assert_eq!(field, [0, 0xff]);
    assert_eq!(store.judge_piece(0, first), Ok(()));
    assert_eq!(store.judge_piece(1, last), Ok(()));
    assert_eq!(store.bitfield(&mut field), Ok(&[0xc0][..]));
    assert_eq!(field, [0xc0, 0xff]);
    assert_eq!(store.clear(2), Ok(()));
    assert_eq!((store.marked(2), store.marked(3)), (Ok(false), Ok(true)));
    assert_eq!((store.clear(5), store.marked(5)), (Err(Refusal::RuleBroken), Err(Refusal::RuleBroken)));
    assert_eq!(store.bitfield(&mut field[..1]), Ok(&[0x40][..]));
    assert_eq!(store.bitfield(&mut []), Err(Refusal::NoRoom));
    assert_eq!(store.held(2, 0), Ok(known.at(2, 0)), "no hash is forgotten");
}

#[test]
fn a_store_is_saved_loaded_and_repaired() {
    let known = known();
    let mut memory = Vec::new();
    let mut store = known.open(&mut memory);
    assert_eq!(store.take(&known.message([2, 0, 2, 0])), Ok(2));
    assert_eq!(store.take(&known.message([0, 0, 4, 1])), Ok(6));
    assert_eq!(store.judge_block(2, known.block(2)), Ok(()));
    assert_eq!(store.save(&mut []), Err(Refusal::NoRoom));
    let mut saved = store.save(&mut vec![0; 2 * store.bytes().len()]).unwrap().to_vec();

    let mut other = vec![0xaa; store.bytes().len()];
    assert_eq!(Store::load(&mut other[..], &saved[1..]), Err(Refusal::NotSaved));
    let (loaded, held) = Store::load(&mut other[..], &saved).unwrap();
    assert_eq!(held, 9);
    assert_eq!(saved.len(), 50 + 41 * 9 + 5);
    assert_eq!(loaded.bytes(), store.bytes());
    assert_eq!(loaded.marked(2), Ok(true));

    saved[45 + 9] ^= 1; // the first position's hash
    let mut other = vec![0xaa; store.bytes().len()];
    assert_eq!(Store::load(&mut other[..], &saved), Err(Refusal::NotSaved));
    let (repaired, counts) = Store::repair(&mut other[..], &saved).unwrap();
    assert_eq!(counts, Repaired { dropped: 2, held: held - 2 });
    assert_eq!(repaired.held(0, 0), Err(Refusal::NoAnchor));
    assert_eq!(repaired.marked(2), Ok(false));
}

#[test]
fn layers_pieces_and_blocks() {
    let known = known();
    let mut memory = Vec::new();
    let mut store = known.open(&mut memory);
    let layer = [known.at(2, 0), known.at(2, 1)].concat();
    let (first, last) = known.bytes.split_at(PIECE as usize);
    assert_eq!(store.judge_piece(1, last), Err(Refusal::NoAnchor));
    assert_eq!(store.load_layer(&layer), Ok(2));
    assert_eq!(store.judge_piece(0, first), Ok(()));
    assert_eq!(store.judge_piece(1, last), Ok(()));
    assert_eq!(store.judge_piece(2, last), Err(Refusal::RuleBroken));
    assert_eq!(store.judge_block(4, known.block(4)), Err(Refusal::NoAnchor));
    assert_eq!(store.take(&known.message([0, 0, 8, 0])), Ok(12));
    assert_eq!(store.judge_block(4, known.block(4)), Ok(()));
    assert_eq!(store.judge_block(4, known.block(3)), Err(Refusal::Differs));
}

/// A store that learnt from a layer comes to hold its leaves, of the pieces at hand.
#[test]
fn a_layer_and_the_pieces_teach_the_leaves() {
    let known = known();
    let mut memory = Vec::new();
    let mut store = known.open(&mut memory);
    let layer: Vec<u8> = (0..2).flat_map(|piece| known.at(2, piece)).collect();
    assert_eq!(store.load_layer(&layer), Ok(2));
    let mut room = [0; 49 + 4 * 32];
    for (piece, data) in known.bytes.chunks(PIECE as usize).enumerate() {
        assert_eq!(store.piece_hashes(piece as u64, data, &mut room[1..]), Err(Refusal::NoRoom));
        let message = store.piece_hashes(piece as u64, data, &mut room).unwrap();
        assert_eq!(message, known.message([0, 4 * piece as u32, 4, 0]));
        assert_eq!(store.take(message), Ok(6));
    }
    assert_eq!(store.next_request(0), Ok(None));
    assert_eq!(store.marked(0), Ok(false));
}

/// From a fresh store to the last leaf and the last piece, by what it names itself, from a store that has all.
#[test]
fn asking_and_picking_to_the_end() {
    let known = known();
    let (mut memory, mut other) = (Vec::new(), Vec::new());
    let mut source = known.open(&mut memory);
    assert_eq!(source.take(&known.message([0, 0, 8, 0])), Ok(14));
    let mut store = known.open(&mut other);
    let mut replies = [0, 0];
    for (which, layer) in [2, 0].into_iter().enumerate() {
        while let Some(request) = store.next_request(layer).unwrap() {
            let Request { base, index, length, proof, message } = request;
            assert_eq!(message[..], known.header([base, index, length, proof]).write(REQUEST));
            let mut out = [0; 1000];
            assert!(store.take(source.serve(&message, &mut out).reply).is_ok());
            replies[which] += 1;
        }
    }
    assert_eq!(replies, [1, 1]);
    assert_eq!(store.next_request(1), Err(Refusal::RuleBroken));
    assert_eq!(store.pick_piece(&[1]), Err(Refusal::WrongSize));
    assert_eq!(store.pick_piece(&[0, 0]), Ok(None));
    let mut picked = Vec::new();
    while let Some(piece) = store.pick_piece(&[2, 1]).unwrap() {
        let bytes = known.bytes.chunks(PIECE as usize).nth(piece as usize).unwrap();
        assert_eq!(store.judge_piece(piece, bytes), Ok(()));
        picked.push(piece);
    }
    assert_eq!(picked, [1, 0], "the rarer one first");
    let none = [];
    assert_eq!(Store::over(&none).next_request(0), Err(Refusal::Unusable));
    assert_eq!(Store::over(&none).pick_piece(&[]), Err(Refusal::Unusable));
}

#[test]
fn a_history_that_grew_and_one_that_changed() {
    let known = known();
    let mut memory = Vec::new();
    let mut store = known.open(&mut memory);
    let earlier = |length: u64| reference::tree::root_of_file(&known.bytes[..length as usize]);
    let inside = 3 * BLOCK + 9;
    assert_eq!(store.extends(inside, earlier(inside), known.block(3)), Err(Refusal::NoAnchor));
    assert!(store.take(&known.message([0, 0, 8, 0])).is_ok());
    assert_eq!(store.extends(inside, earlier(inside), known.block(3)), Ok(()));
    assert_eq!(store.extends(4 * BLOCK, earlier(4 * BLOCK), &[]), Ok(()));
    assert_eq!(store.extends(LENGTH, known.root(), &[]), Ok(()), "the same");
    assert_eq!(store.extends(inside, earlier(inside + 1), known.block(3)), Err(Refusal::Differs));
    assert_eq!(store.extends(inside, earlier(inside), known.block(2)), Err(Refusal::Differs));
    assert_eq!(store.extends(inside, earlier(inside), &known.block(3)[..9]), Err(Refusal::WrongSize));
    assert_eq!(store.extends(LENGTH + 1, known.root(), &[]), Err(Refusal::RuleBroken));
    assert_eq!(Store::over([]).extends(1, known.root(), &[]), Err(Refusal::Unusable));
}

#[test]
fn stores_in_several_threads_at_once() {
    let known = known();
    std::thread::scope(|scope| {
        for _ in 0..4 {
            scope.spawn(|| {
                let mut memory = Vec::new();
                let mut store = known.open(&mut memory);
                for (words, newly) in [([2, 0, 2, 0], 2), ([0, 0, 4, 1], 6), ([0, 4, 4, 2], 6), ([0, 0, 8, 0], 0)] {
                    assert_eq!(store.take(&known.message(words)), Ok(newly));
                }
                assert!((0..5).all(|block| store.judge_block(block, known.block(block)).is_ok()));
            });
        }
    });
}

/// A torrent of libtorrent's: six files, the first in two folders, the third empty.
const SEVERAL: &[u8] = include_bytes!("../../tests/real/several.torrent");

#[test]
fn a_torrent() {
    let torrent = Torrent::read(SEVERAL).unwrap();
    assert_eq!((torrent.piece_length, torrent.files), (32768, 6));
    let voltage = torrent.file(0).unwrap();
    assert_eq!((voltage.length, voltage.elements, voltage.layer.len()), (100_000, 3, 4 * 32));
    assert_eq!(torrent.path(0, 2), Ok(&b"voltage"[..]));
    assert_eq!(torrent.path(4, 1), Ok(&b"\xff\xfe"[..]));
    assert_eq!(torrent.path(0, 3), Err(Refusal::NoSuchPart));
    assert_eq!(torrent.file(6), Err(Refusal::NoSuchPart));
    assert_eq!(Torrent::read(&SEVERAL[1..]), Err(Refusal::NotStrict));
}

#[test]
fn a_list_of_files() {
    let torrent = Torrent::read(SEVERAL).unwrap();
    let mut memory = vec![0xaa; torrent.list_size() + 1];
    let short = memory.len() - 2;
    assert!(matches!(torrent.list(&mut memory[..short]), Err(Refusal::NoRoom)));
    let list = torrent.list(&mut memory).unwrap();
    assert_eq!(list.len(), 6);
    for (number, listed) in list.clone().enumerate() {
        assert_eq!(Ok(listed.file), torrent.file(number as u64));
        let path: Vec<&[u8]> = listed.path().collect();
        assert_eq!(path.len() as u64, listed.file.elements);
        for (element, name) in path.into_iter().enumerate() {
            assert_eq!(torrent.path(number as u64, element as u64), Ok(name));
        }
    }
    assert_eq!(list.get(5).unwrap().path().collect::<Vec<_>>(), [b"readme"]);
    assert_eq!(list.get(6), None);
}

/// A store that is opened and filled with nothing but what a torrent says.
#[test]
fn from_the_torrent_to_the_store() {
    let torrent = Torrent::read(SEVERAL).unwrap();
    let file = torrent.file(0).unwrap();
    let mut memory = vec![0; store_size(file.length, torrent.piece_length).unwrap()];
    let mut store = Store::open(&mut memory, file.length, torrent.piece_length, file.root).unwrap();
    // Four pieces, that is layers 1, 2 and 3 of seven blocks, the root held before.
    assert_eq!(store.load_layer(file.layer), Ok(6));
}

const HYBRID: &[u8] = include_bytes!("../../tests/real/hybrid.torrent");

/// The v1 half of a hybrid, and a piece that is judged by both.
#[test]
fn a_hybrid_torrent() {
    let torrent = Torrent::read(HYBRID).unwrap();
    assert_eq!(torrent.hybrid(), sha1(torrent.info().unwrap()).map(Some));
    assert_eq!(Torrent::read(SEVERAL).unwrap().hybrid(), Ok(None));
    assert_eq!(Torrent::read(SEVERAL).unwrap().v1_pieces(0), Err(Refusal::RuleBroken));
    assert_eq!(torrent.v1_pieces(6), Err(Refusal::NoSuchPart));
    assert_eq!(torrent.v1_piece(1, 1), Err(Refusal::RuleBroken));
    // `history`: a piece of 16 KiB and one byte, with zeros behind it.
    let (row, file) = (torrent.v1_pieces(3).unwrap(), torrent.file(3).unwrap());
    assert_eq!((row.hashes.len(), row.zeros, row.hashes), (40, 16383, &HYBRID[row.start..][..40]));
    for piece in 0..2 {
        assert_eq!(torrent.v1_piece(3, piece), Ok(row.piece(piece).unwrap()));
    }
    assert_eq!((row.piece(2), torrent.v1_pieces(4).unwrap().piece(0)), (None, None));
    let seed: u64 = b"history".iter().map(|byte| u64::from(*byte)).sum();
    let bytes: Vec<u8> = (0..file.length).map(|i| (i * 7 + i / 251 + seed) as u8).collect();
    let memory = vec![0; store_size(file.length, torrent.piece_length).unwrap()];
    let mut store = Store::open(memory, file.length, torrent.piece_length, file.root).unwrap();
    store.load_layer(file.layer).unwrap();
    let (first, last) = (row.piece(0).unwrap(), row.piece(1).unwrap());
    assert_eq!(store.judge_hybrid_piece(1, &bytes[16384..], first), Err(Refusal::Differs));
    assert_eq!(store.marked(1), Ok(false));
    assert_eq!(store.judge_hybrid_piece(1, &bytes[16384..], last), Ok(()));
    assert_eq!(store.judge_hybrid_piece(0, &bytes[..16384], first), Ok(()));
    assert_eq!(store.marked(1), Ok(true));
    let mut bent = HYBRID.to_vec();
    let place = bent.windows(9).position(|part| part == b"4:attr1:p").unwrap();
    bent[place + 8] = b'q';
    assert_eq!(Torrent::read(&bent), Err(Refusal::HalvesDiffer));
}

/// A file that is logged in bursts, published on the way, and believed by a store opened with what was published.
#[test]
fn a_history_is_logged_and_loaded() {
    let file: Vec<u8> = (0..100_000u32).map(|i| (i * 7 + i / 251) as u8).collect();
    let mut layer = [0xaa; 4 * 32];
    let mut history = History::begin(32768, &mut layer).unwrap();
    assert_eq!(History::begin(5, &mut []).unwrap_err(), Refusal::FactsOutOfRange);
    let mut hashing = Hashing::begin();
    for (number, burst) in file.chunks(999).enumerate() {
        assert_eq!(history.more(burst), Ok(()));
        assert_eq!(hashing.more(burst), Ok(()));
        if number % 40 == 0 {
            let so_far = history.end().unwrap();
            assert_eq!(so_far.length as usize, (number + 1) * 999);
        }
    }
    assert_eq!(Ok(hashing.end()), sha256(&file));
    let logged = history.end().unwrap();
    assert_eq!((logged.length, logged.layer.len()), (100_000, 4 * 32));
    let mut memory = vec![0; store_size(logged.length, 32768).unwrap()];
    let mut store = Store::open(&mut memory, logged.length, 32768, logged.root).unwrap();
    assert_eq!(store.load_layer(logged.layer), Ok(6));
    for (piece, bytes) in file.chunks(32768).enumerate() {
        assert_eq!(store.judge_piece(piece as u64, bytes), Ok(()));
    }
    assert_eq!(history.more(&file[..65536]), Err(Refusal::NoRoom));
    assert_eq!(history.length(), 100_000);
}

/// What copies bytes elsewhere copies them here too; a refusal comes back as it is.
#[test]
fn writing_as_to_a_file() {
    let file: Vec<u8> = (0..50_000u32).map(|i| (i / 7) as u8).collect();
    let mut hashing = Hashing::default();
    assert_eq!(io::copy(&mut &file[..], &mut hashing).unwrap(), 50_000);
    assert_eq!(Ok(hashing.end()), sha256(&file));

    let mut layer = [0; 3 * 32];
    let mut history = History::begin(16384, &mut layer).unwrap();
    assert_eq!(io::copy(&mut &file[..], &mut history).unwrap(), 50_000);
    assert_eq!(history.end().unwrap_err(), Refusal::NoRoom);
    let error = history.write_all(&file).unwrap_err();
    assert_eq!(error.get_ref().unwrap().downcast_ref(), Some(&Refusal::NoRoom));
    assert_eq!(history.length(), 50_000);
}

/// A store that is only read, and one that owns its memory.
#[test]
fn over_memory_of_any_kind() {
    let known = known();
    let mut memory = Vec::new();
    assert_eq!(known.open(&mut memory).take(&known.message([0, 0, 8, 0])), Ok(14));
    let only_read = Store::over(&memory[..]);
    let copied = only_read;
    assert_eq!((copied.held(0, 4), copied.marked(4)), (Ok(known.at(0, 4)), Ok(false)));
    assert_eq!(only_read.serve(&known.header([0, 4, 4, 2]).write(REQUEST), &mut [0; 209]).answer, Ok(()));
    let mut owned = Store::over(memory);
    assert_eq!(owned.judge_block(4, known.block(4)), Ok(()));
    assert_eq!(Store::over(owned.into_memory()).marked(4), Ok(true));
}
