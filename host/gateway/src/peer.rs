//! A connection to a neighbour: handshake, then a thread that hears and one that sends. What is heard goes to calls of the library, and
//! what they answer decides what it costs the neighbour.

use crate::gate::{Gate, Room};
use crate::held::Came;
use crate::limits::{weight, End, Patience, Weight};
use crate::line::{Line, Out};
use crate::link::STACK;
use crate::torrent::Torrent;
use crate::wire::{is_late, read_before, word, Hello, Part, HANDSHAKE};
use crate::{say, send};
use kombudeva::ids::*;
use kombudeva::limits::{BLOCK, LARGEST_REPLY};
use kombudeva::{Heard, Refusal, Stream};
use std::collections::{BTreeSet, HashMap, VecDeque};
use std::io::{Read, Write};
use std::net::{SocketAddr, TcpStream};
use std::sync::atomic::Ordering::Relaxed;
use std::sync::Arc;
use std::thread;
use std::time::{Duration, Instant};

const HANDSHAKE_TIME: Duration = Duration::from_secs(10);
const WRITE_TIME: Duration = Duration::from_secs(30);
const TICK: Duration = Duration::from_millis(250);
/// How long a connection stays over which nothing more can come or go.
const ALL_TIME: Duration = Duration::from_secs(5);
/// Bytes of one read.
const READ: usize = 64 << 10;

/// A block on its way to us.
pub(crate) struct Wanted {
    pub file: usize,
    pub block: u64,
    pub since: Instant,
}

/// A piece that is put together in memory, since this neighbour has no leaves to judge its blocks by.
pub(crate) struct Assembly {
    pub file: usize,
    pub piece: u64,
    pub bytes: Vec<u8>,
    pub missing: BTreeSet<u64>,
    pub _room: Room,
}

/// A connection whose hands are shaken.
pub struct Peer {
    pub(crate) gate: Arc<Gate>,
    pub(crate) torrent: Arc<Torrent>,
    pub(crate) line: Arc<Line>,
    pub(crate) patience: Patience,
    /// The pieces that the neighbour has.
    pub(crate) has: Vec<bool>,
    heard_any: bool,
    pub(crate) chokes: bool,
    is_interested: bool,
    /// Blocks that were asked for, and those of them that were given up and may still come.
    pub(crate) wanted: HashMap<Part, Wanted>,
    pub(crate) late: VecDeque<Part>,
    /// Blocks to be asked for next, and the pieces that they are of.
    pub(crate) next: VecDeque<(usize, u64)>,
    pub(crate) pieces: Vec<(usize, u64)>,
    /// Headers of hash requests without an answer yet.
    pub(crate) hashes_wanted: VecDeque<[u8; 48]>,
    pub(crate) assembly: Option<Assembly>,
    pub(crate) file: usize,
    pub(crate) not_before: Instant,
    /// How often in a row it did not give what it was asked for in time.
    pub(crate) too_late: u32,
}

/// A neighbour that has called: it says which torrent it is about.
pub fn inbound(gate: &Arc<Gate>, link: TcpStream, address: SocketAddr) {
    let Some(hello) = hear_hello(&link) else { return };
    let Some(torrent) = gate.torrent_of(&hello.info_hash) else { return };
    let ours = Hello::new(&torrent.info_hash, gate.peer_id);
    if hello.peer_id == gate.peer_id || (&link).write_all(&ours.bytes()).is_err() {
        return;
    }
    Peer::new(gate, link, address, &torrent).run();
}

/// A neighbour that was called.
pub fn outbound(gate: &Arc<Gate>, link: TcpStream, address: SocketAddr, torrent: &Arc<Torrent>) -> Option<Peer> {
    let ours = Hello::new(&torrent.info_hash, gate.peer_id);
    (&link).write_all(&ours.bytes()).ok()?;
    let hello = hear_hello(&link)?;
    let same = hello.info_hash == ours.info_hash && hello.peer_id != ours.peer_id;
    same.then(|| Peer::new(gate, link, address, torrent))
}

fn hear_hello(link: &TcpStream) -> Option<Hello> {
    let mut bytes = [0; HANDSHAKE];
    link.set_write_timeout(Some(WRITE_TIME)).ok()?;
    link.set_nodelay(true).ok()?;
    read_before(link, &mut bytes, Instant::now() + HANDSHAKE_TIME).ok()?;
    Hello::of(&bytes)
}

impl Peer {
    fn new(gate: &Arc<Gate>, link: TcpStream, address: SocketAddr, torrent: &Arc<Torrent>) -> Peer {
        let now = Instant::now();
        let line = Arc::new(Line::new(gate.next_id(), address, link, gate.tally(address.ip())));
        // From here on pieces that become whole are announced; the bitfield, made after that and sent before, may tell of them twice.
        torrent.add_line(&line);
        line.send_first([&[BITFIELD][..], &torrent.bitfield()].concat());
        line.send(vec![UNCHOKE]);
        line.send(vec![INTERESTED]);
        Peer {
            gate: gate.clone(),
            torrent: torrent.clone(),
            line,
            patience: Patience::new(now),
            has: vec![false; torrent.pieces as usize],
            heard_any: false,
            chokes: true,
            is_interested: false,
            wanted: HashMap::new(),
            late: VecDeque::new(),
            next: VecDeque::new(),
            pieces: Vec::new(),
            hashes_wanted: VecDeque::new(),
            assembly: None,
            file: 0,
            not_before: now,
            too_late: 0,
        }
    }

    /// Hears till the connection ends.
    pub fn run(mut self) {
        let (gate, torrent, line) = (self.gate.clone(), self.torrent.clone(), self.line.clone());
        line.tally.connections.fetch_add(1, Relaxed);
        say!("connected", neighbour = line.address, torrent = torrent.name);
        let sender = {
            let (gate, torrent, line) = (gate.clone(), torrent.clone(), line.clone());
            thread::Builder::new().stack_size(STACK).spawn(move || send::all(&gate, &torrent, &line))
        };
        let end = match sender {
            Ok(_) => self.hear_all(),
            Err(_) => Err(End::Dropped("no thread")),
        };
        let end = match (end, line.why()) {
            (_, Some(why)) => End::Renewed(why),
            (Err(end), None) => end,
            (Ok(()), None) => End::Gone("closed".into()),
        };
        line.close("ended");
        self.leave();
        torrent.remove_line(line.id);
        line.tally.connections.fetch_sub(1, Relaxed);
        *line.tally.last.lock().unwrap() = end.words().into();
        let refused: u64 = line.tally.refusals.lock().unwrap().values().sum();
        say!("disconnected", neighbour = line.address, torrent = torrent.name, why = end.words(), refused = refused);
        if let End::Banned(why) = end {
            gate.ban(line.address.ip(), why);
        }
        if let Ok(sender) = sender {
            let _ = sender.join();
        }
    }

    fn hear_all(&mut self) -> Result<(), End> {
        let broken = |error: std::io::Error| End::Gone(error.to_string());
        let silence = Duration::from_secs(self.gate.config.limits.silence);
        let line = self.line.clone();
        let mut link = line.link();
        link.set_read_timeout(Some(TICK)).map_err(broken)?;
        let (mut room, mut bytes) = (vec![0; LARGEST_REPLY], vec![0; READ]);
        let mut stream = Stream::begin(&mut room);
        let (mut last_frame, mut last_tick, mut last_look) = (Instant::now(), Instant::now(), Instant::now());
        loop {
            match link.read(&mut bytes) {
                Ok(0) => return Ok(()),
                Ok(size) => {
                    let mut hearing = stream.hear(&bytes[..size]);
                    while let Some(heard) = hearing.next() {
                        last_frame = Instant::now();
                        match heard {
                            Ok(Heard::Message(message)) => self.hear(message, last_frame)?,
                            Ok(Heard::KeepAlive) => self.patience.idle(last_frame)?,
                            Err(refusal) => self.refused(refusal, last_frame)?,
                        }
                    }
                    self.ask_data(last_frame);
                }
                Err(error) if is_late(&error) => (),
                Err(error) => return Err(broken(error)),
            }
            let now = Instant::now();
            if now.duration_since(last_tick) >= TICK {
                last_tick = now;
                if now.duration_since(last_frame) >= silence {
                    return Err(End::Dropped("silent"));
                }
                self.give_up(now);
                self.ask_hashes(now);
                self.ask_data(now);
            }
            if now.duration_since(last_look) >= ALL_TIME {
                last_look = now;
                let idle = now.duration_since(last_frame) >= ALL_TIME;
                if idle && self.has.iter().all(|has| *has) && self.torrent.is_whole() {
                    return Err(End::Renewed("both have all of it"));
                }
            }
            if self.line.is_closed() {
                return Ok(());
            }
        }
    }

    /// What a refusal costs.
    pub(crate) fn refused(&mut self, refusal: Refusal, now: Instant) -> Result<(), End> {
        self.line.tally.refused(refusal.number());
        match (refusal, weight(refusal)) {
            (Refusal::FrameTooLong, _) => Err(End::Dropped("a frame that is too long")),
            (_, Weight::Lie) => Err(End::Banned("hashes or bytes that are not the file's")),
            (_, Weight::Strike | Weight::OurMemory) => self.patience.strike(now),
            (_, Weight::Idle) => self.patience.idle(now),
        }
    }

    fn hear(&mut self, message: &[u8], now: Instant) -> Result<(), End> {
        let first = !std::mem::replace(&mut self.heard_any, true);
        match message[0] {
            CHOKE if self.chokes => self.patience.idle(now),
            CHOKE => {
                self.chokes = true;
                self.release();
                Ok(())
            }
            UNCHOKE if !self.chokes => self.patience.idle(now),
            UNCHOKE => {
                self.chokes = false;
                self.ask_hashes(now);
                Ok(())
            }
            INTERESTED | NOT_INTERESTED => {
                let is_interested = message[0] == INTERESTED;
                match std::mem::replace(&mut self.is_interested, is_interested) == is_interested {
                    true => self.patience.idle(now),
                    false => Ok(()),
                }
            }
            HAVE => self.hear_have(u64::from(word(message, 1)), now),
            BITFIELD if first => self.hear_bitfield(&message[1..], now),
            REQUEST => self.hear_request(Part::of(message), now),
            CANCEL if self.line.withdraw(Part::of(message)) => Ok(()),
            CANCEL => self.patience.idle(now),
            PIECE => self.hear_block(message, now),
            HASH_REQUEST => match self.line.answer(Out::Hashes(message.to_vec())) {
                true => Ok(()),
                false => Err(End::Dropped("too many requests at once")),
            },
            HASHES => self.hear_hashes(message, now),
            HASH_REJECT => self.hear_reject(message, now),
            // A second bitfield, an extension that we did not offer.
            _ => self.patience.strike(now),
        }
    }

    fn hear_have(&mut self, piece: u64, now: Instant) -> Result<(), End> {
        match self.torrent.place(piece) {
            None => self.patience.strike(now),
            Some(_) if self.has[piece as usize] => self.patience.idle(now),
            Some((file, of_file)) => {
                self.has[piece as usize] = true;
                self.torrent.held(file).lock().unwrap().counts[of_file as usize] += 1;
                self.not_before = now;
                Ok(())
            }
        }
    }

    fn hear_bitfield(&mut self, bits: &[u8], now: Instant) -> Result<(), End> {
        let pieces = self.torrent.pieces;
        let bit = |piece: u64| bits[piece as usize / 8] & (0x80 >> (piece % 8)) != 0;
        if bits.len() as u64 != pieces.div_ceil(8) || (pieces..8 * bits.len() as u64).any(bit) {
            return Err(End::Dropped("a bitfield of another size"));
        }
        for (file, held) in self.torrent.all_held() {
            let mut held = held.lock().unwrap();
            for piece in 0..held.pieces() {
                if bit(file.first_piece + piece) {
                    self.has[(file.first_piece + piece) as usize] = true;
                    held.counts[piece as usize] += 1;
                }
            }
        }
        self.ask_hashes(now);
        Ok(())
    }

    fn hear_request(&mut self, part: Part, now: Instant) -> Result<(), End> {
        let Some((file, block, _)) = self.torrent.block(part) else { return self.patience.strike(now) };
        if !self.torrent.held(file).lock().unwrap().is_marked(block) {
            // It may be one that was lost since we told of it.
            return self.patience.idle(now);
        }
        match self.line.answer(Out::Block(part)) {
            true => Ok(()),
            false => Err(End::Dropped("too many requests at once")),
        }
    }

    fn hear_block(&mut self, message: &[u8], now: Instant) -> Result<(), End> {
        let bytes = &message[9..];
        let part = Part { piece: word(message, 1), begin: word(message, 5), size: bytes.len() as u32 };
        let Some(wanted) = self.wanted.remove(&part) else {
            let place = self.late.iter().position(|late| *late == part);
            return match place.and_then(|place| self.late.remove(place)) {
                Some(_) => self.patience.idle(now),
                None => self.patience.strike(now),
            };
        };
        self.line.tally.taken.fetch_add(bytes.len() as u64, Relaxed);
        self.too_late = 0;
        let (file, piece) = (wanted.file, wanted.block * BLOCK / self.torrent.piece_length);
        let came = match &mut self.assembly {
            Some(assembly) if (assembly.file, assembly.piece) == (file, piece) => {
                let at = (wanted.block * BLOCK - piece * self.torrent.piece_length) as usize;
                assembly.bytes[at..at + bytes.len()].copy_from_slice(bytes);
                assembly.missing.remove(&wanted.block);
                if !assembly.missing.is_empty() {
                    return Ok(());
                }
                let assembly = self.assembly.take().expect("just looked at");
                self.torrent.held(file).lock().unwrap().piece_came(&*self.gate.disk, piece, &assembly.bytes)
            }
            _ => self.torrent.held(file).lock().unwrap().block_came(&*self.gate.disk, wanted.block, bytes),
        };
        self.settle(file, piece, came, now)
    }

    /// What follows from what became of a block or a piece.
    fn settle(&mut self, file: usize, piece: u64, came: Came, now: Instant) -> Result<(), End> {
        match came {
            Came::Known => self.patience.idle(now),
            Came::Refused(refusal) => self.refused(refusal, now),
            Came::Taken(None) => Ok(()),
            Came::Taken(Some(_)) => {
                self.pieces.retain(|one| *one != (file, piece));
                let whole = {
                    let mut held = self.torrent.held(file).lock().unwrap();
                    held.in_flight.remove(&piece);
                    held.trouble = None;
                    held.is_whole()
                };
                if whole {
                    say!("whole", torrent = self.torrent.name, file = self.torrent.held(file).lock().unwrap().name);
                }
                self.torrent.announce(file, piece);
                Ok(())
            }
            Came::NotWritten(error) => {
                say!("not_written", torrent = self.torrent.name, why = error);
                self.torrent.held(file).lock().unwrap().pause(&error, now);
                self.release();
                Ok(())
            }
        }
    }

    fn hear_hashes(&mut self, message: &[u8], now: Instant) -> Result<(), End> {
        if !self.was_wanted(message) {
            self.line.tally.refused(0);
            return self.patience.strike(now);
        }
        let (mut newly, mut worst) = (0, None);
        for held in self.torrent.of_root(&message[1..33]) {
            let mut held = held.lock().unwrap();
            held.asked.take_if(|asked| asked.to == self.line.id);
            match held.take(message) {
                Ok(count) => newly += count,
                Err(Refusal::Conflict) => {
                    say!("bad_memory", file = held.name);
                    let _ = held.begin_afresh(&*self.gate.disk);
                    worst = Some(Refusal::Conflict);
                }
                Err(refusal) => worst = Some(refusal),
            }
        }
        if let Some(refusal) = worst {
            return self.refused(refusal, now);
        }
        if newly == 0 {
            return self.patience.idle(now);
        }
        self.not_before = now;
        self.ask_hashes(now);
        Ok(())
    }

    fn hear_reject(&mut self, message: &[u8], now: Instant) -> Result<(), End> {
        if !self.was_wanted(message) {
            return self.patience.strike(now);
        }
        let mut answer = Ok(());
        for held in self.torrent.of_root(&message[1..33]) {
            let mut held = held.lock().unwrap();
            answer = held.take_reject(message);
            held.asked.take_if(|asked| asked.to == self.line.id);
            held.without_leaves.insert(self.line.id, now);
        }
        self.not_before = now;
        answer.or_else(|refusal| self.refused(refusal, now))
    }

    /// Whether a reply or reject is to a request of ours on this connection.
    fn was_wanted(&mut self, message: &[u8]) -> bool {
        let place = self.hashes_wanted.iter().position(|header| header[..] == message[1..49]);
        place.and_then(|place| self.hashes_wanted.remove(place)).is_some()
    }

    /// Takes back what this connection has counted and begun.
    fn leave(&mut self) {
        self.release();
        for (file, held) in self.torrent.all_held() {
            let mut held = held.lock().unwrap();
            for piece in 0..held.pieces() {
                if self.has[(file.first_piece + piece) as usize] {
                    held.counts[piece as usize] -= 1;
                }
            }
            held.asked.take_if(|asked| asked.to == self.line.id);
            held.without_leaves.remove(&self.line.id);
        }
    }
}
