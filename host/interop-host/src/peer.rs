//! A connection to a BitTorrent peer: handshake; messages framed and heard by the library.

use kombudeva::limits::LONGEST_FRAME;
use kombudeva::{frame, Hash, Heard, Stream};
use std::io::{self, ErrorKind, Read, Write};
use std::net::TcpStream;
use std::time::Duration;

const PROTOCOL: &[u8; 20] = b"\x13BitTorrent protocol";
/// Byte 5, bit 0x10: extensions. Byte 7, bit 0x10: v2; libtorrent doesn't set it where the torrent has no v1 half.
const RESERVED: [u8; 8] = [0, 0, 0, 0, 0, 0x10, 0, 0x10];
const PEER_ID: &[u8; 20] = b"-KD0001-interop-host";
/// So that a silent peer ends the program.
const PATIENCE: Duration = Duration::from_secs(30);

pub struct Peer {
    link: TcpStream,
    stream: Stream<'static>,
    /// Bytes that the link gave and the stream has not heard yet.
    waiting: Vec<u8>,
}

impl Peer {
    pub fn connect(port: u16, info_hash: &Hash) -> io::Result<Peer> {
        Peer::shake_hands(TcpStream::connect(("127.0.0.1", port))?, info_hash)
    }

    /// Both sides write the same form, so neither has to wait for the other.
    pub fn shake_hands(mut link: TcpStream, info_hash: &Hash) -> io::Result<Peer> {
        link.set_read_timeout(Some(PATIENCE))?;
        link.set_nodelay(true)?;
        // A handshake has room for 20 bytes of the v2 info hash.
        let ours = [&PROTOCOL[..], &RESERVED, &info_hash[..20], PEER_ID].concat();
        link.write_all(&ours)?;
        let mut theirs = [0; 68];
        link.read_exact(&mut theirs)?;
        assert_eq!(theirs[..20], ours[..20], "another protocol");
        assert_eq!(theirs[28..48], ours[28..48], "another torrent");
        // One connection a run: its room lives as long as the program.
        let room = Box::leak(vec![0; LONGEST_FRAME].into_boxed_slice());
        Ok(Peer { link, stream: Stream::begin(room), waiting: Vec::new() })
    }

    /// Sends a message, its id first, in its frame.
    pub fn send(&mut self, message: &[u8]) -> io::Result<()> {
        let mut out = vec![0; 4 + message.len()];
        self.link.write_all(frame(message, &mut out).expect("a message of a known id and a right size"))
    }

    /// The next message, its id first. Keep-alives are passed over.
    pub fn receive(&mut self) -> io::Result<Vec<u8>> {
        loop {
            let mut hearing = self.stream.hear(&self.waiting);
            let heard = match hearing.next() {
                Some(Ok(Heard::Message(message))) => Some(message.to_vec()),
                Some(Ok(Heard::KeepAlive)) => Some(Vec::new()),
                Some(Err(refused)) => panic!("the peer's stream: {refused}"),
                None => None,
            };
            let used = self.waiting.len() - hearing.rest().len();
            self.waiting.drain(..used);
            match heard {
                Some(message) if !message.is_empty() => return Ok(message),
                Some(_) => (),
                None => self.wait()?,
            }
        }
    }

    /// More bytes, cut as the link gives them.
    fn wait(&mut self) -> io::Result<()> {
        let mut piece = [0; 16384];
        match self.link.read(&mut piece)? {
            0 => Err(ErrorKind::UnexpectedEof.into()),
            size => {
                self.waiting.extend_from_slice(&piece[..size]);
                Ok(())
            }
        }
    }

    /// The next message of one of these ids.
    pub fn receive_one_of(&mut self, ids: &[u8]) -> io::Result<Vec<u8>> {
        loop {
            let message = self.receive()?;
            if ids.contains(&message[0]) {
                return Ok(message);
            }
        }
    }
}

/// The 32-bit word at a place in a message.
pub fn word(message: &[u8], at: usize) -> u32 {
    u32::from_be_bytes(message[at..at + 4].try_into().unwrap())
}

/// A message of an id and some words.
pub fn of_words(id: u8, words: &[u32]) -> Vec<u8> {
    std::iter::once(id).chain(words.iter().flat_map(|word| word.to_be_bytes())).collect()
}
