//! The host as a peer of a seed: it asks for a run past the last block, for a run longer than libtorrent's own and for all hashes of each
//! file, offers each reply to the library, and damaged ones in between. Then, with a fresh store, it asks for exactly what the library names
//! next, to the last leaf, and fetches the pieces that the library picks, to the last one, and judges them. On the way it is restarted: the store
//! is saved, loaded into fresh memory, and the host goes on with that.

use crate::contents::{Contents, File, Lent};
use crate::peer::{of_words, word, Peer};
use kombudeva::ids::{HASHES, HASH_REJECT, HASH_REQUEST, INTERESTED, PIECE, REQUEST, UNCHOKE};
use kombudeva::limits::{BLOCK, LARGEST_REPLY, LONGEST_RUN};
use kombudeva::{Refusal, Store};
use std::io;

/// The longest run that libtorrent asks for; it answers longer ones.
const RUN: u32 = 512;

#[derive(Default)]
struct Counts {
    taken: u64,
    before_their_anchor: u64,
    in_padding: u64,
    at_once: u64,
    rounds: u64,
    named: u64,
    restarts: u64,
    refused: u64,
    believed: u64,
}

pub fn run(contents: &Contents, port: u16) -> io::Result<()> {
    let mut peer = Peer::connect(port, &contents.info_hash)?;
    peer.send(&[INTERESTED])?;
    peer.receive_one_of(&[UNCHOKE])?;
    for file in contents.files.iter().filter(|file| file.length > 0) {
        let mut memory = Vec::new();
        let mut store = file.open(&mut memory);
        let mut counts = Counts::default();
        learn_padding(&mut peer, file, &mut counts)?;
        learn_at_once(&mut peer, file, &mut counts)?;
        learn_hashes(&mut peer, file, &mut store, &mut counts)?;
        let mut memory = Vec::new();
        let _ = file.open(&mut memory);
        learn_by_asking(&mut peer, file, &mut memory, &mut counts)?;
        hand_on(file, &Store::over(&memory));
        judge_pieces(&mut peer, file, &mut memory, &mut counts)?;
        assert_eq!(counts.believed, file.blocks(), "every block is believed");
        println!(
            "{}: {} replies taken ({} of them had come before their anchor; {} rounds in two orders leave the same), {} more past the last \
             block, {} longer than {RUN}, {} damaged ones refused; from a fresh store {} requests as named, {} restarts, {} of {} blocks \
             believed",
            file.path.display(),
            counts.taken,
            counts.before_their_anchor,
            counts.rounds,
            counts.in_padding,
            counts.at_once,
            counts.refused,
            counts.named,
            counts.restarts,
            counts.believed,
            file.blocks()
        );
    }
    Ok(())
}

/// The requests for every hash of a file, leaves first, so that the leaves of a large file come before their anchor.
fn requests(file: &File) -> Vec<Vec<u8>> {
    let leaves = runs(file, 0, |_| 0);
    let pieces = runs(file, file.piece_layer(), |height| height - 1);
    leaves.chain(pieces).collect()
}

/// Requests for a layer of a file in runs as long as libtorrent's own; a layer that is a run's own top or above has none.
/// `proof` gives the proof layers for the layers there are from this one to the root.
fn runs<'a>(file: &'a File, layer: u32, proof: fn(u32) -> u32) -> impl Iterator<Item = Vec<u8>> + 'a {
    let above = file.height().saturating_sub(layer);
    let length = RUN.min(1 << above);
    let in_layer = if above == 0 { 0 } else { file.blocks().div_ceil(1 << layer) };
    (0..in_layer as u32).step_by(length as usize).map(move |index| request(file, [layer, index, length, proof(above)]))
}

/// The request with this base layer, index, length and these proof layers.
fn request(file: &File, words: [u32; 4]) -> Vec<u8> {
    let mut request = of_words(HASH_REQUEST, &words);
    request.splice(1..1, file.root);
    request
}

/// The last two leaves up to the root, where both are past the last block: taken on a fresh store of its own, so that the
/// leaves of a large file still come before their anchor.
fn learn_padding(peer: &mut Peer, file: &File, counts: &mut Counts) -> io::Result<()> {
    let leaves = 1 << file.height();
    if leaves < file.blocks() + 2 {
        return Ok(());
    }
    let reply = ask(peer, &request(file, [0, leaves as u32 - 2, 2, file.height() - 1]))?;
    let mut memory = Vec::new();
    let mut store = file.open(&mut memory);
    assert!(store.take(&reply).is_ok(), "its anchor is the root");
    assert_eq!(store.held(0, leaves - 1), Ok([0; 32]), "a leaf past the last block is zeros");
    counts.in_padding += 1;
    Ok(())
}

/// All leaves in one run, where that is longer: taken on a fresh store of its own, since its anchor is the root.
fn learn_at_once(peer: &mut Peer, file: &File, counts: &mut Counts) -> io::Result<()> {
    let leaves = 1 << file.height();
    if !(RUN < leaves && leaves <= LONGEST_RUN) {
        return Ok(());
    }
    let reply = ask(peer, &request(file, [0, 0, leaves, 0]))?;
    let mut memory = Vec::new();
    let mut store = file.open(&mut memory);
    assert_eq!(store.take(&reply), Ok(2 * leaves as u64 - 2), "all positions but the root are new");
    counts.at_once += 1;
    Ok(())
}

/// The seed's reply to a request.
fn ask(peer: &mut Peer, request: &[u8]) -> io::Result<Vec<u8>> {
    peer.send(request)?;
    let reply = peer.receive_one_of(&[HASHES, HASH_REJECT])?;
    assert_eq!((reply[0], &reply[1..49]), (HASHES, &request[1..]), "the seed has all hashes");
    Ok(reply)
}

fn learn_hashes(peer: &mut Peer, file: &File, store: &mut Lent<'_>, counts: &mut Counts) -> io::Result<()> {
    let (mut replies, mut early) = (Vec::new(), Vec::new());
    for request in requests(file) {
        let reply = ask(peer, &request)?;
        if offer(store, &reply, counts) == Err(Refusal::NoAnchor) {
            early.push(reply.clone());
        }
        replies.push(reply);
    }
    counts.before_their_anchor = early.len() as u64;
    for reply in early {
        assert!(offer(store, &reply, counts).is_ok(), "its anchor is held by now");
    }
    let (leaves_first, some) = hear_in_rounds(file, &replies);
    replies.reverse();
    let (pieces_first, others) = hear_in_rounds(file, &replies);
    assert!(leaves_first == pieces_first && leaves_first == store.bytes(), "the same messages in any order");
    counts.rounds = some + others;
    for block in 0..file.blocks() {
        assert!(store.held(0, block).is_ok(), "every leaf is held");
    }
    Ok(())
}

/// Offers all replies to a fresh store, again and again, until a whole round makes nothing newly held: its bytes, and how many rounds it took.
fn hear_in_rounds(file: &File, replies: &[Vec<u8>]) -> (Vec<u8>, u64) {
    let mut memory = Vec::new();
    let mut store = file.open(&mut memory);
    let mut rounds = 0;
    loop {
        rounds += 1;
        let newly: u64 = replies.iter().map(|reply| store.take(reply).unwrap_or(0)).sum();
        if newly == 0 {
            return (store.bytes().to_vec(), rounds);
        }
    }
}

/// The layers that the library names requests for: the piece layer, where the file has one, then the leaves.
fn layers(file: &File) -> Vec<u64> {
    let pieces = (file.length > file.piece_length).then_some(file.piece_layer() as u64);
    pieces.into_iter().chain([0]).collect()
}

/// How many replies a layer takes at most: one for each run with a position that isn't padding.
fn most_replies(file: &File, layer: u64) -> u64 {
    let length = (LONGEST_RUN as u64).min(1 << (file.height() as u64 - layer));
    file.blocks().div_ceil(1 << layer).div_ceil(length)
}

/// A restart: the store is saved, and loaded into memory that held something else. It is the same then, byte by byte.
fn restart(memory: &mut Vec<u8>, counts: &mut Counts) {
    let mut room = vec![0; 2 * memory.len()];
    let saved = Store::over(&memory).save(&mut room).expect("twice the store's size is room enough");
    let (store, held) = Store::load(vec![0xa5; memory.len()], saved).expect("what was saved is loaded");
    assert!(held > 0 && store.bytes() == memory, "the same hashes and marks");
    *memory = store.bytes().to_vec();
    counts.restarts += 1;
}

/// Asks the seed for exactly what the store names, until there is nothing to ask; behind each reply there is a restart.
fn learn_by_asking(peer: &mut Peer, file: &File, memory: &mut Vec<u8>, counts: &mut Counts) -> io::Result<()> {
    for layer in layers(file) {
        let mut replies = 0;
        while let Some(request) =
            Store::over(&memory).next_request(layer).expect("a layer of the file, and a root that is held")
        {
            let reply = ask(peer, &request.message)?;
            assert!(Store::over(&mut *memory).take(&reply).is_ok(), "its anchor is held");
            restart(memory, counts);
            replies += 1;
        }
        assert!(replies <= most_replies(file, layer));
        counts.named += replies;
    }
    for block in 0..file.blocks() {
        assert!(Store::over(&memory).held(0, block).is_ok(), "every leaf is held");
    }
    Ok(())
}

/// The same once more, from one of our stores to another.
fn hand_on<M: AsRef<[u8]>>(file: &File, source: &Store<M>) {
    let mut memory = Vec::new();
    let mut store = file.open(&mut memory);
    let mut out = vec![0; LARGEST_REPLY];
    for layer in layers(file) {
        while let Some(request) = store.next_request(layer).expect("a layer of the file, and a root that is held") {
            let served = source.serve(&request.message, &mut out);
            assert!(served.answer.is_ok() && store.take(served.reply).is_ok());
        }
    }
    for block in 0..file.blocks() {
        assert_eq!(store.held(0, block), source.held(0, block));
    }
}

/// Offers a true reply, and damaged ones before and after it.
fn offer(store: &mut Lent<'_>, reply: &[u8], counts: &mut Counts) -> Result<u64, Refusal> {
    offer_damaged(store, reply, counts);
    let answer = store.take(reply);
    match answer {
        Ok(_) => counts.taken += 1,
        Err(Refusal::NoAnchor) => return answer,
        Err(refused) => panic!("a true reply is refused: {refused}"),
    }
    offer_damaged(store, reply, counts);
    assert_eq!(store.take(reply), Ok(0), "the same reply again tells nothing new");
    answer
}

/// Offers a reply damaged in one way after the other. Each is refused by its own number, and no byte changes.
fn offer_damaged(store: &mut Lent<'_>, reply: &[u8], counts: &mut Counts) {
    let damaged = |change: fn(&mut Vec<u8>)| {
        let mut message = reply.to_vec();
        change(&mut message);
        message
    };
    // The first hash of a run is above a block, so it is no padding.
    let first_hash = damaged(|message| message[49] ^= 1);
    let ways = [
        (damaged(|message| message[0] = HASH_REJECT), Err(Refusal::NoMessage)),
        (damaged(|message| message[1] ^= 1), Err(Refusal::OtherRoot)),
        (damaged(|message| message[44] ^= 1), Err(Refusal::RuleBroken)),
        (damaged(|message| message.truncate(message.len() - 32)), Err(Refusal::WrongSize)),
    ];
    let before = store.bytes().to_vec();
    for (message, expected) in ways {
        assert_eq!(store.take(&message), expected);
    }
    assert!(matches!(store.take(&first_hash), Err(Refusal::Differs | Refusal::NoAnchor)));
    assert_eq!(store.bytes(), before, "a refusal loses nothing");
    counts.refused += 5;
}

/// Fetches the pieces that the library picks: the seed has each, so the lowest that isn't on disk comes first. Behind the middle one
/// there is a restart, and the picking goes on behind it.
fn judge_pieces(peer: &mut Peer, file: &File, memory: &mut Vec<u8>, counts: &mut Counts) -> io::Result<()> {
    let neighbours = vec![1; file.pieces() as usize];
    loop {
        let mut store = Store::over(&mut *memory);
        let Some(piece) = store.pick_piece(&neighbours).expect("a count for each piece") else { break };
        let start = piece * file.piece_length;
        let size = file.piece_length.min(file.length - start);
        let mut bytes = fetch_piece(peer, (file.first_piece + piece) as u32, size)?;
        assert_eq!(judge(&mut store, file, piece, &bytes), Ok(()));
        for (offset, block) in bytes.chunks_mut(BLOCK as usize).enumerate() {
            let number = start / BLOCK + offset as u64;
            if store.judge_block(number, block).is_ok() {
                counts.believed += 1;
            }
            block[0] ^= 1;
            assert_eq!(store.judge_block(number, block), Err(Refusal::Differs), "a damaged block is not believed");
        }
        assert_eq!(judge(&mut store, file, piece, &bytes), Err(Refusal::Differs), "nor a piece of them");
        if piece == file.pieces() / 2 {
            restart(memory, counts);
        }
    }
    all_marked(file, &Store::over(&memory));
    Ok(())
}

/// By both halves, where the torrent is a hybrid.
fn judge(store: &mut Store<&mut Vec<u8>>, file: &File, piece: u64, bytes: &[u8]) -> Result<(), Refusal> {
    match &file.v1 {
        Some(v1) => store.judge_hybrid_piece(piece, bytes, v1.piece(piece).expect("a piece of the file")),
        None => store.judge_piece(piece, bytes),
    }
}

/// Every block is marked, and the bitfield is all ones.
fn all_marked<M: AsRef<[u8]>>(file: &File, store: &Store<M>) {
    let mut field = vec![0; file.pieces().div_ceil(8) as usize];
    assert_eq!(store.bitfield(&mut field).map(<[u8]>::len), Ok(file.pieces().div_ceil(8) as usize));
    assert!((0..file.pieces()).all(|piece| field[piece as usize / 8] & 0x80 >> (piece % 8) != 0));
    assert!((0..file.length.div_ceil(BLOCK)).all(|block| store.marked(block) == Ok(true)));
}

/// A piece of this size, block by block.
fn fetch_piece(peer: &mut Peer, piece: u32, size: u64) -> io::Result<Vec<u8>> {
    let mut bytes = vec![0; size as usize];
    let starts = || (0..size).step_by(BLOCK as usize);
    for start in starts() {
        peer.send(&of_words(REQUEST, &[piece, start as u32, BLOCK.min(size - start) as u32]))?;
    }
    for _ in starts() {
        let message = peer.receive_one_of(&[PIECE])?;
        assert_eq!(word(&message, 1), piece);
        let (start, block) = (word(&message, 5) as usize, &message[9..]);
        bytes[start..start + block.len()].copy_from_slice(block);
    }
    Ok(bytes)
}
