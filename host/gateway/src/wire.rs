//! Handshake and messages of the wire, as far as no call of the library has them.

use kombudeva::ids::{HAVE, PIECE, REQUEST};
use kombudeva::Hash;
use std::io::{Error, ErrorKind, Read, Result};
use std::net::TcpStream;
use std::time::{Duration, Instant};

pub const HANDSHAKE: usize = 68;
const PROTOCOL: &[u8; 20] = b"\x13BitTorrent protocol";
/// Byte 7, bit 0x10: v2. No bit for extensions: torrents come by folder.
const RESERVED: [u8; 8] = [0, 0, 0, 0, 0, 0, 0, 0x10];

/// What a handshake says: the first 20 bytes of the v2 info hash, and who speaks.
#[derive(Clone, Copy, Debug, PartialEq, Eq)]
pub struct Hello {
    pub info_hash: [u8; 20],
    pub peer_id: [u8; 20],
}

impl Hello {
    pub fn new(info_hash: &Hash, peer_id: [u8; 20]) -> Hello {
        Hello { info_hash: info_hash[..20].try_into().expect("20 bytes"), peer_id }
    }

    pub fn bytes(&self) -> Vec<u8> {
        [&PROTOCOL[..], &RESERVED, &self.info_hash, &self.peer_id].concat()
    }

    /// None for another protocol. Bits that are not ours say nothing.
    pub fn of(bytes: &[u8; HANDSHAKE]) -> Option<Hello> {
        let part = |from: usize| bytes[from..from + 20].try_into().expect("20 bytes");
        bytes.starts_with(PROTOCOL).then(|| Hello { info_hash: part(28), peer_id: part(48) })
    }
}

/// Reads all of `out` before the deadline, however few bytes come at a time.
pub fn read_before(mut link: &TcpStream, out: &mut [u8], deadline: Instant) -> Result<()> {
    let mut have = 0;
    while have < out.len() {
        let left = deadline.saturating_duration_since(Instant::now());
        if left.is_zero() {
            return Err(ErrorKind::TimedOut.into());
        }
        link.set_read_timeout(Some(left.max(Duration::from_millis(1))))?;
        match link.read(&mut out[have..]) {
            Ok(0) => return Err(ErrorKind::UnexpectedEof.into()),
            Ok(size) => have += size,
            Err(error) if is_late(&error) || error.kind() == ErrorKind::Interrupted => (),
            Err(error) => return Err(error),
        }
    }
    Ok(())
}

pub fn is_late(error: &Error) -> bool {
    matches!(error.kind(), ErrorKind::WouldBlock | ErrorKind::TimedOut)
}

/// The 32-bit word at a place in a message that is long enough.
pub fn word(message: &[u8], at: usize) -> u32 {
    u32::from_be_bytes(message[at..at + 4].try_into().expect("4 bytes"))
}

fn of_words(id: u8, words: &[u32]) -> Vec<u8> {
    std::iter::once(id).chain(words.iter().flat_map(|word| word.to_be_bytes())).collect()
}

pub fn have(piece: u32) -> Vec<u8> {
    of_words(HAVE, &[piece])
}

/// A part of a piece, as it is asked for, withdrawn and found again when it comes.
#[derive(Clone, Copy, Debug, PartialEq, Eq, Hash, PartialOrd, Ord)]
pub struct Part {
    pub piece: u32,
    pub begin: u32,
    pub size: u32,
}

impl Part {
    /// Of a request or a cancel, 13 bytes.
    pub fn of(message: &[u8]) -> Part {
        Part { piece: word(message, 1), begin: word(message, 5), size: word(message, 9) }
    }

    pub fn request(&self) -> Vec<u8> {
        of_words(REQUEST, &[self.piece, self.begin, self.size])
    }

    /// The message that brings it.
    pub fn reply(&self, bytes: &[u8]) -> Vec<u8> {
        let mut message = of_words(PIECE, &[self.piece, self.begin]);
        message.extend_from_slice(bytes);
        message
    }
}

#[cfg(test)]
mod tests {
    use super::*;

    #[test]
    fn a_handshake_comes_back() {
        let hello = Hello::new(&[7; 32], *b"-KD0014-abcdefghijkl");
        let bytes: [u8; HANDSHAKE] = hello.bytes().try_into().unwrap();
        assert_eq!(Hello::of(&bytes), Some(hello));
        assert_eq!(bytes[27], 0x10);
        let mut other = bytes;
        other[1] = b'b';
        assert_eq!(Hello::of(&other), None);
    }

    #[test]
    fn a_part_comes_back() {
        let part = Part { piece: 1, begin: 2, size: 3 };
        assert_eq!(Part::of(&part.request()), part);
        assert_eq!(part.reply(b"abc"), [&[PIECE, 0, 0, 0, 1, 0, 0, 0, 2][..], b"abc"].concat());
        assert_eq!(have(258), [HAVE, 0, 0, 1, 2]);
    }
}
