//! States as the bytes of their C structs, so that any bytes can be tried as a state.

use reference::history::{History, NODES};
use reference::running::Hashing;
use reference::stream::Stream;

/// The bytes of a `kd_hashing`, of a `kd_history` and of a `kd_stream`.
pub const HASHING: usize = 112;
pub const HISTORY: usize = 128 + 32 * NODES;
pub const STREAM: usize = 16;

fn number(bytes: &[u8], at: usize) -> u64 {
    u64::from_le_bytes(bytes[at..at + 8].try_into().unwrap())
}

pub fn hashing_of(bytes: &[u8]) -> Hashing {
    Hashing {
        words: std::array::from_fn(|i| u32::from_le_bytes(bytes[4 * i..4 * i + 4].try_into().unwrap())),
        tail: bytes[32..96].try_into().unwrap(),
        tail_size: number(bytes, 96),
        total: number(bytes, 104),
    }
}

pub fn hashing_bytes(state: &Hashing) -> Vec<u8> {
    let mut bytes: Vec<u8> = state.words.iter().flat_map(|word| word.to_le_bytes()).collect();
    bytes.extend_from_slice(&state.tail);
    bytes.extend_from_slice(&state.tail_size.to_le_bytes());
    bytes.extend_from_slice(&state.total.to_le_bytes());
    bytes
}

pub fn history_of(bytes: &[u8]) -> History {
    History {
        piece_length: number(bytes, 0),
        length: number(bytes, 8),
        block: hashing_of(&bytes[16..128]),
        nodes: std::array::from_fn(|k| bytes[128 + 32 * k..][..32].try_into().unwrap()),
    }
}

pub fn history_bytes(state: &History) -> Vec<u8> {
    let mut bytes = state.piece_length.to_le_bytes().to_vec();
    bytes.extend_from_slice(&state.length.to_le_bytes());
    bytes.extend(hashing_bytes(&state.block));
    bytes.extend(state.nodes.concat());
    bytes
}

pub fn to_hashing(given: boundary::Hashing) -> Hashing {
    Hashing { words: given.words, tail: given.tail, tail_size: given.tail_size, total: given.total }
}

pub fn from_hashing(state: Hashing) -> boundary::Hashing {
    boundary::Hashing { words: state.words, tail: state.tail, tail_size: state.tail_size, total: state.total }
}

pub fn to_history(given: boundary::History) -> History {
    History {
        piece_length: given.piece_length,
        length: given.length,
        block: to_hashing(given.block),
        nodes: std::array::from_fn(|k| given.nodes[32 * k..][..32].try_into().unwrap()),
    }
}

pub fn from_history(state: History) -> boundary::History {
    boundary::History {
        piece_length: state.piece_length,
        length: state.length,
        block: from_hashing(state.block),
        nodes: state.nodes.concat().try_into().unwrap(),
    }
}

pub fn stream_of(bytes: &[u8]) -> Stream {
    let word = |at: usize| u32::from_le_bytes(bytes[at..at + 4].try_into().unwrap());
    Stream { length: word(0), length_size: word(4), read: word(8), mode: word(12) }
}

pub fn stream_bytes(state: &Stream) -> Vec<u8> {
    [state.length, state.length_size, state.read, state.mode].iter().flat_map(|word| word.to_le_bytes()).collect()
}

pub fn to_stream(given: boundary::Stream) -> Stream {
    Stream { length: given.length, length_size: given.length_size, read: given.read, mode: given.mode }
}

pub fn from_stream(state: Stream) -> boundary::Stream {
    boundary::Stream { length: state.length, length_size: state.length_size, read: state.read, mode: state.mode }
}
