//! The host as the one peer of a client that knows a magnet link only: metadata from the torrent, piece layers from
//! stores through the library, blocks from the files.

use crate::contents::{Contents, File, Lent};
use crate::peer::{word, Peer};
use kombudeva::ids::{BITFIELD, EXTENDED, HASH_REQUEST, PIECE, REQUEST, UNCHOKE};
use kombudeva::limits::LARGEST_REPLY;
use reference::bencode;
use std::net::TcpListener;
use std::path::Path;
use std::{fs, io};

/// The id under which we want to hear ut_metadata messages; the peer says its own.
const OUR_METADATA: u8 = 2;
const METADATA_PART: usize = 16384;

/// A file with its bytes and its store.
struct Shared<'a> {
    file: &'a File<'a>,
    bytes: Vec<u8>,
    store: Lent<'a>,
}

#[derive(Default)]
struct Counts {
    metadata_parts: u64,
    hashes: u64,
    rejects: u64,
    blocks: u64,
}

pub fn run(contents: &Contents, folder: &Path) -> io::Result<()> {
    let mut memories: Vec<Vec<u8>> = contents.files.iter().map(|_| Vec::new()).collect();
    let nonempty = contents.files.iter().zip(&mut memories).filter(|(file, _)| file.length > 0);
    let shared: Vec<Shared> = nonempty.map(|(file, memory)| share(file, memory, folder)).collect::<io::Result<_>>()?;
    let listener = TcpListener::bind(("127.0.0.1", 0))?;
    println!("port {}", listener.local_addr()?.port());
    let (stream, _) = listener.accept()?;
    let mut peer = Peer::shake_hands(stream, &contents.info_hash)?;
    let counts = answer_all(&mut peer, contents, &shared)?;
    println!(
        "served {} metadata parts, {} hashes messages, {} rejects, {} blocks",
        counts.metadata_parts, counts.hashes, counts.rejects, counts.blocks
    );
    Ok(())
}

/// Opens a store for a file, and loads the piece layer that the torrent has of it.
fn share<'a>(file: &'a File<'a>, memory: &'a mut Vec<u8>, folder: &Path) -> io::Result<Shared<'a>> {
    let mut store = file.open(memory);
    if !file.layer.is_empty() {
        assert!(store.load_layer(file.layer).is_ok(), "the layer of a good torrent");
    }
    Ok(Shared { file, bytes: fs::read(folder.join(&file.path))?, store })
}

/// Answers messages until the peer leaves.
fn answer_all(peer: &mut Peer, contents: &Contents, shared: &[Shared]) -> io::Result<Counts> {
    peer.send(&extended_handshake(contents.info.len()))?;
    peer.send(&bitfield(contents.pieces()))?;
    peer.send(&[UNCHOKE])?;
    let mut counts = Counts::default();
    let mut their_metadata = 0;
    loop {
        let message = match peer.receive() {
            Ok(message) => message,
            Err(error) if error.kind() == io::ErrorKind::UnexpectedEof => return Ok(counts),
            Err(error) if error.kind() == io::ErrorKind::ConnectionReset => return Ok(counts),
            Err(error) => return Err(error),
        };
        match message[0] {
            EXTENDED if message[1] == 0 => their_metadata = metadata_id(&message[2..]).unwrap_or(0),
            EXTENDED if message[1] == OUR_METADATA => {
                counts.metadata_parts += 1;
                peer.send(&metadata_part(their_metadata, contents.info, &message[2..]))?;
            }
            HASH_REQUEST => peer.send(&hashes_reply(shared, &message, &mut counts))?,
            REQUEST => {
                counts.blocks += 1;
                peer.send(&block_reply(shared, &message))?;
            }
            _ => (),
        }
    }
}

fn extended_handshake(metadata_size: usize) -> Vec<u8> {
    let dictionary = format!("d1:md11:ut_metadatai{OUR_METADATA}ee13:metadata_sizei{metadata_size}ee");
    [&[EXTENDED, 0], dictionary.as_bytes()].concat()
}

/// The bits of all pieces, spare bits zero.
fn bitfield(pieces: u64) -> Vec<u8> {
    let byte = |number: u64| match pieces - 8 * number {
        8.. => 0xff,
        rest => !(0xff >> rest),
    };
    std::iter::once(BITFIELD).chain((0..pieces.div_ceil(8)).map(byte)).collect()
}

/// An integer of a dictionary, at the end of a path of keys.
fn integer(bytes: &[u8], path: &[&str]) -> Option<i64> {
    let whole = bencode::read(bytes).ok()?;
    let last = path.iter().try_fold(&whole, |value, key| bencode::find(bytes, value.dictionary()?, key.as_bytes()))?;
    last.integer()
}

/// The id under which the peer wants to hear ut_metadata messages.
fn metadata_id(handshake: &[u8]) -> Option<u8> {
    integer(handshake, &["m", "ut_metadata"]).map(|id| id as u8)
}

fn metadata_part(id: u8, info: &[u8], request: &[u8]) -> Vec<u8> {
    assert_eq!(integer(request, &["msg_type"]), Some(0), "the peer has no metadata to tell of");
    let part = integer(request, &["piece"]).expect("a part's number") as usize;
    let bytes = info.chunks(METADATA_PART).nth(part).expect("a part of the metadata");
    let head = format!("d8:msg_typei1e5:piecei{part}e10:total_sizei{}ee", info.len());
    [&[EXTENDED, id], head.as_bytes(), bytes].concat()
}

/// The library's reply to a request for hashes. The file is found by its root; a request about none of them is put to any
/// store, which rejects it.
fn hashes_reply(shared: &[Shared], request: &[u8], counts: &mut Counts) -> Vec<u8> {
    let asked = shared.iter().find(|one| request[1..].starts_with(&one.file.root)).unwrap_or(&shared[0]);
    let mut out = vec![0; LARGEST_REPLY];
    let served = asked.store.serve(request, &mut out);
    match served.answer {
        Ok(()) => counts.hashes += 1,
        Err(_) => counts.rejects += 1,
    }
    served.reply.to_vec()
}

/// A block. Of a file's last, shorter one the peer asks for all 16384 bytes: the rest is zero.
fn block_reply(shared: &[Shared], request: &[u8]) -> Vec<u8> {
    let (piece, start, size) = (word(request, 1) as u64, word(request, 5) as u64, word(request, 9) as u64);
    let of_file = |one: &&Shared| (one.file.first_piece..one.file.first_piece + one.file.pieces()).contains(&piece);
    let one = shared.iter().find(of_file).expect("a piece of a file");
    let from = (piece - one.file.first_piece) * one.file.piece_length + start;
    let to = (from + size).min(one.file.length);
    let mut message = [&[PIECE], &request[1..9], &one.bytes[from as usize..to as usize]].concat();
    message.resize(9 + size as usize, 0);
    message
}
