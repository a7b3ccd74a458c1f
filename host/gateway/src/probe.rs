//! A short visit to a neighbour, before a new version of a history is accepted: the leaves of one piece and one block of it. Both are
//! judged by the library, in a store of their own; nothing is written to disk.

use crate::gate::Gate;
use crate::grown::{Entry, Need};
use crate::link::connect;
use crate::wire::{is_late, read_before, word, Hello, Part, HANDSHAKE};
use kombudeva::ids::*;
use kombudeva::limits::{BLOCK, LARGEST_REPLY};
use kombudeva::{frame, Hash, Heard, Store, Stream};
use std::io::{Read, Write};
use std::net::{SocketAddr, TcpStream};
use std::time::{Duration, Instant};

const TIME: Duration = Duration::from_secs(20);
/// Messages of no use that are borne.
const MOST_MESSAGES: usize = 5000;

/// Asks each neighbour in turn, till one has what is needed.
pub fn ask(
    gate: &Gate,
    info_hash: &Hash,
    file: &Entry,
    store: &mut Store<Vec<u8>>,
    need: Need,
) -> Result<Vec<u8>, String> {
    let mut why = String::from("no neighbour to ask");
    for neighbour in gate.config.neighbours.iter().filter(|one| !gate.is_banned(one.ip())) {
        match visit(gate, *neighbour, info_hash, file, store, &need) {
            Ok(bytes) => return Ok(bytes),
            Err(said) => why = format!("{neighbour}: {said}"),
        }
    }
    Err(why)
}

fn visit(
    gate: &Gate,
    neighbour: SocketAddr,
    info_hash: &Hash,
    file: &Entry,
    store: &mut Store<Vec<u8>>,
    need: &Need,
) -> Result<Vec<u8>, String> {
    let text = |error: std::io::Error| error.to_string();
    let link = connect(gate.config.listen, neighbour).map_err(text)?;
    let deadline = Instant::now() + TIME;
    link.set_write_timeout(Some(TIME)).map_err(text)?;
    let ours = Hello::new(info_hash, gate.peer_id);
    (&link).write_all(&ours.bytes()).map_err(text)?;
    let mut theirs = [0; HANDSHAKE];
    read_before(&link, &mut theirs, deadline).map_err(text)?;
    if Hello::of(&theirs).is_none_or(|theirs| theirs.info_hash != ours.info_hash) {
        return Err("another protocol or torrent".into());
    }
    send(&link, &[INTERESTED])?;
    let request = leaves_request(file, need.piece);
    if let Some(request) = &request {
        send(&link, request)?;
    }
    let mut visit = Visit { file, store, need, block: None, bytes: None, leaves: request.is_none(), unchoked: false };
    visit.hear(&link, deadline)?;
    Ok(visit.bytes.unwrap_or_default())
}

struct Visit<'a> {
    file: &'a Entry,
    store: &'a mut Store<Vec<u8>>,
    need: &'a Need,
    /// The block that was asked for.
    block: Option<Part>,
    bytes: Option<Vec<u8>>,
    leaves: bool,
    unchoked: bool,
}

impl Visit<'_> {
    fn is_done(&self) -> bool {
        self.leaves && (self.need.block.is_none() || self.bytes.is_some())
    }

    fn hear(&mut self, mut link: &TcpStream, deadline: Instant) -> Result<(), String> {
        let (mut room, mut bytes, mut messages) = (vec![0; LARGEST_REPLY], vec![0; 16384], 0);
        let mut stream = Stream::begin(&mut room);
        while !self.is_done() {
            let left = deadline.saturating_duration_since(Instant::now());
            if left.is_zero() {
                return Err("no answer in time".into());
            }
            link.set_read_timeout(Some(left.max(Duration::from_millis(1)))).map_err(|error| error.to_string())?;
            let size = match link.read(&mut bytes) {
                Ok(0) => return Err("it has closed the connection".into()),
                Ok(size) => size,
                Err(error) if is_late(&error) => continue,
                Err(error) => return Err(error.to_string()),
            };
            let mut hearing = stream.hear(&bytes[..size]);
            while let Some(heard) = hearing.next() {
                messages += 1;
                if messages > MOST_MESSAGES {
                    return Err("too many messages".into());
                }
                match heard {
                    Ok(Heard::Message(message)) => self.message(message)?,
                    Ok(Heard::KeepAlive) => (),
                    Err(refusal) => return Err(refusal.to_string()),
                }
            }
            self.ask_block(link)?;
        }
        Ok(())
    }

    fn message(&mut self, message: &[u8]) -> Result<(), String> {
        match message[0] {
            UNCHOKE => self.unchoked = true,
            HASHES if !self.leaves => {
                self.store.take(message).map_err(|refusal| format!("its hashes: {refusal}"))?;
                self.leaves = true;
            }
            HASH_REJECT => return Err("it has not these hashes".into()),
            PIECE => {
                let (Some(part), Some(block)) = (self.block, self.need.block) else { return Ok(()) };
                if (part.piece, part.begin) == (word(message, 1), word(message, 5)) {
                    self.store.judge_block(block, &message[9..]).map_err(|refusal| format!("its block: {refusal}"))?;
                    self.bytes = Some(message[9..].to_vec());
                }
            }
            _ => (),
        }
        Ok(())
    }

    /// Once leaves are held, to judge it by.
    fn ask_block(&mut self, link: &TcpStream) -> Result<(), String> {
        if let (true, true, None, Some(block)) = (self.leaves, self.unchoked, self.block, self.need.block) {
            let facts = &self.file.facts;
            let begin = block * BLOCK - self.need.piece * facts.piece_length;
            let part = Part {
                piece: (self.file.first_piece + self.need.piece) as u32,
                begin: begin as u32,
                size: BLOCK.min(facts.length - block * BLOCK) as u32,
            };
            self.block = Some(part);
            send(link, &part.request())?;
        }
        Ok(())
    }
}

fn send(mut link: &TcpStream, message: &[u8]) -> Result<(), String> {
    let mut framed = vec![0; message.len() + 4];
    let framed = frame(message, &mut framed).map_err(|refusal| refusal.to_string())?;
    link.write_all(framed).map_err(|error| error.to_string())
}

/// For all leaves of a piece, up to its node; none where that is a leaf.
fn leaves_request(file: &Entry, piece: u64) -> Option<Vec<u8>> {
    let facts = &file.facts;
    let leaves = match facts.length > facts.piece_length {
        true => facts.piece_length / BLOCK,
        false => facts.length.div_ceil(BLOCK).next_power_of_two(),
    };
    let words = [0, piece * leaves, leaves, 0].map(|word| (word as u32).to_be_bytes()).concat();
    (leaves > 1).then(|| [&[HASH_REQUEST][..], &facts.root, &words].concat())
}
