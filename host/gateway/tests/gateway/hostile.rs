//! What a neighbour may cost: each bound, by a neighbour that goes over it. The gateway runs in this process, on loopback.

use crate::file::{Given, Temporary};
use kdgate::config::Config;
use kdgate::disk::Folder;
use kdgate::gate::Gate;
use kdgate::torrent::Source;
use kdgate::{http, link};
use kombudeva::ids::*;
use kombudeva::Hash;
use std::io::{Read, Write};
use std::net::{SocketAddr, TcpListener, TcpStream};
use std::sync::Arc;
use std::thread;
use std::time::{Duration, Instant};

const LONG: Duration = Duration::from_secs(60);

/// A gateway with one torrent, whole or with nothing of it.
struct Rack {
    gate: Arc<Gate>,
    address: SocketAddr,
    info_hash: Hash,
    given: Given,
    _folder: Temporary,
}

impl Rack {
    fn new(name: &str, whole: bool, limits: &str) -> Rack {
        let folder = Temporary::new(name);
        let listener = TcpListener::bind("127.0.0.1:0").unwrap();
        let address = listener.local_addr().unwrap();
        let config = format!(
            "listen = \"{address}\"\nstatus = \"127.0.0.1:1\"\nfolder = \"{}\"\n[limits]\n{limits}",
            folder.path().display()
        );
        let gate = Gate::new(Config::of(&config).unwrap(), Arc::new(Folder::new(folder.path()).unwrap()));
        let given = Given::new(11, 300_000, 65536);
        let info_hash = gate.add(given.torrent(), Source::Folder("given".into())).unwrap();
        let torrent = gate.torrent(&info_hash).unwrap();
        let mut held = torrent.held(0).lock().unwrap();
        while held.judge_next(&*gate.disk) {}
        if whole {
            held.take(&given.leaves()).unwrap();
            (0..given.blocks()).for_each(|block| drop(held.block_came(&*gate.disk, block, given.block(block))));
            assert!(held.is_whole());
        }
        drop(held);
        let listening = gate.clone();
        thread::spawn(move || link::listen(&listening, &listener));
        Rack { gate, address, info_hash, given, _folder: folder }
    }

    fn call(&self) -> Neighbour {
        let mut link = TcpStream::connect(self.address).unwrap();
        link.set_read_timeout(Some(LONG)).unwrap();
        let front = [&b"\x13BitTorrent protocol"[..], &[0; 8], &self.info_hash[..20], b"-XX0000-hostile-peer"].concat();
        link.write_all(&front).unwrap();
        let mut hello = [0; 68];
        link.read_exact(&mut hello).unwrap();
        assert_eq!((hello[27], &hello[28..48]), (0x10, &self.info_hash[..20]));
        Neighbour { link }
    }

    fn marked(&self) -> u64 {
        self.gate.torrent(&self.info_hash).unwrap().held(0).lock().unwrap().marked()
    }

    fn is_banned(&self) -> bool {
        let end = Instant::now() + LONG;
        while !self.gate.is_banned(self.address.ip()) && Instant::now() < end {
            thread::sleep(Duration::from_millis(20));
        }
        self.gate.is_banned(self.address.ip())
    }
}

struct Neighbour {
    link: TcpStream,
}

impl Neighbour {
    fn send(&mut self, message: &[u8]) {
        let framed = [&(message.len() as u32).to_be_bytes()[..], message].concat();
        let _ = self.link.write_all(&framed);
    }

    /// The next message; none once the gateway has closed.
    fn hear(&mut self) -> Option<Vec<u8>> {
        let mut size = [0; 4];
        self.link.read_exact(&mut size).ok()?;
        let mut message = vec![0; u32::from_be_bytes(size) as usize];
        self.link.read_exact(&mut message).ok()?;
        Some(message)
    }

    fn hear_one_of(&mut self, id: u8) -> Option<Vec<u8>> {
        loop {
            let message = self.hear()?;
            if message.first() == Some(&id) {
                return Some(message);
            }
        }
    }

    /// Whether the gateway closes the connection.
    fn is_closed(&mut self) -> bool {
        while self.hear().is_some() {}
        self.link.set_read_timeout(Some(Duration::from_millis(1))).unwrap();
        !matches!(self.link.read(&mut [0]), Err(error) if kdgate::wire::is_late(&error))
    }
}

fn words(id: u8, words: &[u32]) -> Vec<u8> {
    std::iter::once(id).chain(words.iter().flat_map(|word| word.to_be_bytes())).collect()
}

pub fn an_honest_neighbour_gets_blocks_and_hashes() {
    let rack = Rack::new("honest", true, "");
    let mut neighbour = rack.call();
    assert_eq!(neighbour.hear(), Some(vec![BITFIELD, 0xf8]), "five pieces");
    neighbour.send(&[&[HASH_REQUEST][..], &rack.given.facts.root, &words(0, &[0, 0, 32, 0])[1..]].concat());
    assert_eq!(neighbour.hear_one_of(HASHES), Some(rack.given.leaves()));
    neighbour.send(&words(REQUEST, &[4, 32768, 16384]));
    let block = neighbour.hear_one_of(PIECE).unwrap();
    let mut last = rack.given.bytes[294_912..].to_vec();
    last.resize(16384, 0);
    assert_eq!(block[9..], last, "zeros behind the file's end");
    neighbour.send(&words(REQUEST, &[1, 5, 100]));
    assert_eq!(neighbour.hear_one_of(PIECE).unwrap()[9..], rack.given.bytes[65_541..65_641]);
    // Of a root that no file has, and of hashes that the tree has not.
    neighbour.send(&[&[HASH_REQUEST][..], &[9; 32], &words(0, &[0, 0, 32, 0])[1..]].concat());
    assert_eq!(neighbour.hear_one_of(HASH_REJECT).unwrap()[1..33], [9; 32]);
}

pub fn a_request_for_anything_else_is_a_strike() {
    let rack = Rack::new("strikes", true, "");
    let wrong =
        [[5, 0, 16384], [4, 49_152, 16384], [0, 0, 0], [0, 0, 16385], [0, 1, 16384], [0, 65536, 1], [u32::MAX; 3]];
    let mut neighbour = rack.call();
    for request in wrong.iter().cycle().take(11) {
        neighbour.send(&words(REQUEST, request));
    }
    assert!(neighbour.is_closed());
    // One that keeps below the bound is borne.
    let mut neighbour = rack.call();
    wrong.iter().for_each(|request| neighbour.send(&words(REQUEST, request)));
    neighbour.send(&words(REQUEST, &[0, 0, 16384]));
    assert_eq!(neighbour.hear_one_of(PIECE).unwrap()[9..], rack.given.bytes[..16384]);
}

pub fn a_frame_of_four_gigabytes_ends_it() {
    let rack = Rack::new("frame", true, "");
    for size in [u32::MAX, 300_001] {
        let mut neighbour = rack.call();
        neighbour.link.write_all(&size.to_be_bytes()).unwrap();
        assert!(neighbour.is_closed());
    }
}

pub fn a_flood_of_requests_ends_it() {
    let rack = Rack::new("requests", true, "hashes = 1");
    let mut neighbour = rack.call();
    let request = [&[HASH_REQUEST][..], &rack.given.facts.root, &words(0, &[0, 0, 32, 0])[1..]].concat();
    // Served at a byte a second after the first ones: they wait, and the 65th that does is one too many.
    (0..2000).for_each(|_| neighbour.send(&request));
    assert!(neighbour.is_closed());
}

pub fn a_flood_of_nothing_ends_it() {
    let rack = Rack::new("nothing", true, "");
    for message in [vec![], vec![CHOKE], vec![NOT_INTERESTED], words(HAVE, &[0])] {
        let mut neighbour = rack.call();
        (0..150).for_each(|_| neighbour.send(&message));
        assert!(neighbour.is_closed(), "{message:?}");
    }
}

pub fn replies_that_were_not_asked_for_end_it() {
    let rack = Rack::new("unasked", false, "");
    let today = rack.given.leaves();
    let yesterday = Given::new(12, 300_000, 65536).leaves();
    let block = [&words(PIECE, &[0, 0])[..], rack.given.block(0)].concat();
    let reject = [&[HASH_REJECT][..], &today[1..49]].concat();
    for message in [today, yesterday, block, reject, vec![EXTENDED, 0], vec![BITFIELD, 0xf8]] {
        let mut neighbour = rack.call();
        neighbour.send(&[NOT_INTERESTED]);
        (0..11).for_each(|_| neighbour.send(&message));
        assert!(neighbour.is_closed(), "{:?}", &message[..2]);
    }
    assert_eq!(rack.marked(), 0);
    assert!(!rack.gate.is_banned(rack.address.ip()), "they are no lies");
}

pub fn silence_ends_it() {
    let rack = Rack::new("silence", true, "silence = 1");
    assert!(rack.call().is_closed());
    // Bytes that make no frame are silence too.
    let mut neighbour = rack.call();
    neighbour.link.write_all(&[0, 3, 0, 0, HASHES]).unwrap();
    let began = Instant::now();
    while began.elapsed() < LONG && neighbour.link.write_all(&[0]).is_ok() {
        thread::sleep(Duration::from_millis(100));
    }
    assert!(began.elapsed() < LONG);
}

/// Gives the gateway its leaves, then waits for a request and answers it by `reply`.
fn feed(rack: &Rack, neighbour: &mut Neighbour, leaves: Vec<u8>, reply: impl Fn(u64) -> Vec<u8>) {
    neighbour.send(&[BITFIELD, 0xf8]);
    neighbour.send(&[UNCHOKE]);
    let Some(request) = neighbour.hear_one_of(HASH_REQUEST) else { return };
    assert_eq!(request[1..33], rack.given.facts.root);
    neighbour.send(&leaves);
    while let Some(request) = neighbour.hear_one_of(REQUEST) {
        let word = |at: usize| u32::from_be_bytes(request[at..at + 4].try_into().unwrap());
        let block = u64::from(word(1)) * 4 + u64::from(word(5)) / 16384;
        neighbour.send(&[&[PIECE][..], &request[1..9], &reply(block)].concat());
    }
}

pub fn a_wrong_block_is_a_ban() {
    let rack = Rack::new("liar", false, "");
    let mut neighbour = rack.call();
    feed(&rack, &mut neighbour, rack.given.leaves(), |block| {
        let mut bytes = rack.given.block(block).to_vec();
        bytes[7] ^= u8::from(block == 2);
        bytes
    });
    assert!(rack.is_banned());
    let torrent = rack.gate.torrent(&rack.info_hash).unwrap();
    assert!(!torrent.held(0).lock().unwrap().is_marked(2));
    // Who is banned is closed at once.
    let mut link = TcpStream::connect(rack.address).unwrap();
    link.set_read_timeout(Some(LONG)).unwrap();
    assert!(matches!(link.read(&mut [0; 68]), Ok(0) | Err(_)));
}

pub fn wrong_hashes_are_a_ban() {
    let rack = Rack::new("hashes", false, "");
    let mut wrong = rack.given.leaves();
    wrong[60] ^= 1;
    feed(&rack, &mut rack.call(), wrong, |_| panic!("no block is asked for"));
    assert!(rack.is_banned());
    assert_eq!(rack.marked(), 0);
}

pub fn connections_are_bounded() {
    let rack = Rack::new("connections", true, "per_address = 3");
    let mut neighbours: Vec<Neighbour> = (0..3).map(|_| rack.call()).collect();
    let mut fourth = TcpStream::connect(rack.address).unwrap();
    fourth.set_read_timeout(Some(LONG)).unwrap();
    assert!(matches!(fourth.read(&mut [0; 68]), Ok(0) | Err(_)), "closed at once");
    neighbours.pop();
    let end = Instant::now() + LONG;
    while rack.gate.connections() > 2 && Instant::now() < end {
        thread::sleep(Duration::from_millis(20));
    }
    assert_eq!(rack.call().hear().unwrap()[0], BITFIELD);
}

pub fn a_slow_handshake_is_not_waited_for() {
    let rack = Rack::new("handshake", true, "");
    let mut link = TcpStream::connect(rack.address).unwrap();
    link.set_read_timeout(Some(LONG)).unwrap();
    let began = Instant::now();
    // A byte now and then does not make it longer.
    while link.write_all(&[19]).is_ok() && began.elapsed() < LONG {
        thread::sleep(Duration::from_millis(500));
    }
    assert!((Duration::from_secs(8)..LONG).contains(&began.elapsed()));
    for hello in [&b"GET / HTTP/1.0\r\n\r\n"[..], &[0; 68], b"\x13BitTorrent protocol"] {
        let mut link = TcpStream::connect(rack.address).unwrap();
        link.set_read_timeout(Some(LONG)).unwrap();
        link.write_all(hello).unwrap();
        link.shutdown(std::net::Shutdown::Write).unwrap();
        assert!(matches!(link.read(&mut [0; 68]), Ok(0) | Err(_)));
    }
}

pub fn the_status_port_is_bounded() {
    let rack = Rack::new("status", true, "");
    let listener = TcpListener::bind("127.0.0.1:0").unwrap();
    let address = listener.local_addr().unwrap();
    http::serve(&rack.gate, listener).unwrap();
    let ask = |request: &[u8]| {
        let mut link = TcpStream::connect(address).unwrap();
        link.set_read_timeout(Some(LONG)).unwrap();
        let _ = link.write_all(request);
        let mut answer = Vec::new();
        let _ = link.read_to_end(&mut answer);
        String::from_utf8_lossy(&answer).into_owned()
    };
    let page = ask(b"GET / HTTP/1.1\r\nHost: x\r\n\r\n");
    assert!(page.starts_with("HTTP/1.0 200 OK\r\n") && page.contains("whole") && !page.contains("<script"));
    let object = ask(b"GET /status.json HTTP/1.0\r\n\r\n");
    let object: serde_json::Value = serde_json::from_str(object.split("\r\n\r\n").nth(1).unwrap()).unwrap();
    assert_eq!((&object["histories"][0]["state"], &object["histories"][0]["believed"]), (&"whole".into(), &19.into()));
    assert!(ask(b"GET /metrics HTTP/1.0\r\n\r\n").contains("file=\"file\"} 19\n"));
    for path in ["/torrents/none", "/torrents/../published", "/etc/passwd", "//"] {
        assert!(ask(format!("GET {path} HTTP/1.0\r\n\r\n").as_bytes()).starts_with("HTTP/1.0 404"), "{path}");
    }
    assert!(ask(b"POST / HTTP/1.0\r\n\r\n").starts_with("HTTP/1.0 400"));
    assert_eq!(ask(&[b'x'; 10_000]), "", "a head that is too long");
    // Slow ones take all threads, but not for long.
    let slow: Vec<TcpStream> = (0..4).map(|_| TcpStream::connect(address).unwrap()).collect();
    assert!(ask(b"GET /metrics HTTP/1.0\r\n\r\n").starts_with("HTTP/1.0 200"));
    drop(slow);
}
